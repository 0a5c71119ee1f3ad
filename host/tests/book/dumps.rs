//! Dumps as chips and their readers give them: found out and said, and nothing found where a pool is only damaged.

use std::fs;

use yokehour_host::layout::PAGE_BYTES;

use crate::programs::Folder;

/// A pool with so many spare bytes behind each page.
fn spared(pool: &[u8], spare: usize) -> Vec<u8> {
    pool.chunks(PAGE_BYTES).flat_map(|page| page.iter().copied().chain((0..spare).map(|at| at as u8))).collect()
}

/// The two bytes of each word in the other order.
fn swapped(bytes: &[u8]) -> Vec<u8> {
    bytes.chunks(2).flat_map(|word| word.iter().rev()).copied().collect()
}

/// As `hexdump` prints it, with its own groups, and a star for lines that repeat.
fn hexdump(bytes: &[u8], group: usize) -> String {
    let (mut out, mut last, mut star) = (String::new(), None, false);
    for (at, line) in bytes.chunks(16).enumerate() {
        if last == Some(line) {
            out.push_str(if star { "" } else { "*\n" });
            star = true;
            continue;
        }
        let groups: Vec<String> =
            line.chunks(group).map(|group| group.iter().map(|byte| format!("{byte:02x}")).collect()).collect();
        out.push_str(&format!("{:08x}  {}\n", 16 * at, groups.join(" ")));
        (last, star) = (Some(line), false);
    }
    out + &format!("{:08x}\n", bytes.len())
}

/// Says of each dump how it is read, and that what is in it is what is in the pool.
fn reads(folder: &Folder, dump: &[u8], how: &str) {
    let expected = folder.says("export p --book second");
    fs::write(folder.path("dump"), dump).expect("is written");
    assert_eq!(folder.says("export dump --book second"), expected, "{how}");
    let (status, said) = folder.notes("check dump --book second");
    assert_eq!((status, said), (Some(0), format!("wallbook: dump is read as a dump: {how}\n")));
    assert!(folder.bytes("dump") == dump, "{how}: it is left as it was");
}

#[test]
fn how_a_dump_lies_is_found_out_and_said() {
    let folder = Folder::with_pool("dumps");
    let pool = folder.bytes("p");
    let before = [vec![0x5A; 96], pool.clone()].concat();
    reads(&folder, &spared(&pool, 16), "16 spare bytes behind each page");
    reads(&folder, &swapped(&pool), "16-bit words swapped");
    reads(&folder, &before, "from byte 96 on");
    let all = [vec![0x5A; 96], spared(&pool, 64)].concat();
    reads(&folder, &swapped(&all), "from byte 96 on, 64 spare bytes behind each page, 16-bit words swapped");
    reads(&folder, hexdump(&pool, 1).as_bytes(), "hexadecimal text");
    reads(&folder, hexdump(&swapped(&pool), 2).as_bytes(), "hexadecimal text, 16-bit words swapped");
    let text = hexdump(&spared(&pool, 16), 1);
    reads(&folder, text.as_bytes(), "hexadecimal text, 16 spare bytes behind each page");
}

#[test]
fn a_dump_whose_length_is_another_pools_is_not_taken_for_it() {
    let folder = Folder::new("as-long");
    assert_eq!(folder.status("prepare p 32 --book second"), Some(0));
    assert_eq!(folder.status("put p 7 100 --book second"), Some(0));
    let dump = spared(&folder.bytes("p"), 16);
    assert_eq!(dump.len(), 33 * 32 * PAGE_BYTES, "as long as a pool of 33 blocks");
    reads(&folder, &dump, "16 spare bytes behind each page");
}

#[test]
fn a_damaged_dump_is_found_out_too_and_its_faults_are_told() {
    let folder = Folder::with_pool("damaged-dump");
    let mut dump = spared(&folder.bytes("p"), 16);
    dump[528 + 10] ^= 1;
    fs::write(folder.path("dump"), dump).expect("is written");
    let said = folder.wallbook("check dump --book second");
    assert_eq!(said.status.code(), Some(1));
    assert_eq!(said.stderr, b"wallbook: dump is read as a dump: 16 spare bytes behind each page\n");
    assert!(said.stdout.starts_with(b"5: page 1, byte 59: the sum differs\n"), "{said:?}");
}

#[test]
fn a_pool_that_is_only_damaged_is_taken_as_it_stands() {
    let folder = Folder::with_pool("no-dump");
    let pool = folder.bytes("p");
    let mut broken = pool.clone();
    broken[10] ^= 1;
    let short = pool[..pool.len() - 1].to_vec();
    let long = [pool.clone(), vec![0xFF; 100]].concat();
    for bytes in [broken, short, long, vec![0xFF; pool.len()], vec![0; 700], Vec::new()] {
        fs::write(folder.path("q"), &bytes).expect("is written");
        let (status, said) = folder.notes("check q --book second");
        assert_eq!((status, said.as_str()), (Some(1), ""), "{} bytes", bytes.len());
    }
}

#[test]
fn options_that_cannot_be_are_not_understood() {
    let folder = Folder::with_pool("dump-options");
    for line in
        ["check p --spare", "check p --spare x", "check p --offset -1", "put p 7 1 --swap", "get p 7 --swap --charge"]
    {
        assert_eq!(folder.status(&format!("{line} --book second")), Some(2), "{line}");
    }
    fs::write(folder.path("text"), "00000000: 1000\n00000003: 04\n").expect("is written");
    let (status, said) = folder.notes("check text --book second");
    assert!(status == Some(2) && said.contains("text: line 2 of the hexadecimal text begins at byte 3"), "{said}");
    assert_eq!(folder.status("check p --offset 99999999 --book second"), Some(1), "nothing is left");
}
