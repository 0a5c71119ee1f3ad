//! A desk for sixteen queues (document 02, P5): worked cases byte for byte, lengths, queues, and the order of service.

use crate::common::{bytes, ceiling, charges, delete, get, make, number, panel, plain, prepared, put, scan};
use crate::common::{Fixture, FREE, NONE, PREPARED};
use yokehour_host::book::Outcome;
use yokehour_host::both::Call;
use yokehour_host::command::{encode, parse, Command};
use yokehour_host::desk::{join, Queues};
use yokehour_host::fuzz::Script;
use yokehour_host::input::Input;
use yokehour_host::layout::{MIN_BLOCKS, PANELS};
use yokehour_host::random::Random;
use yokehour_host::reference::in_turns;
use yokehour_host::refusal::Refusal;

/// A get of key 7, of 7 bytes.
const GET: &str = "01000400000007";

/// What a desk comes to on the prepared pool, and what a refused one must.
type Answered = (u8, String, [u64; PANELS], String);

fn answered(lengths: &str, queues: &str, room: usize) -> Answered {
    prepared().desk_of_hex(lengths, queues, room)
}

fn refused(number: u8) -> Answered {
    (number, String::new(), NONE, PREPARED.into())
}

#[test]
fn two_panels_are_served_in_turn() {
    let (lengths, queues) =
        ("00000012 0000000e", "0200080000000700000064 01000400000007 01000400000007 03000400000007");
    let answers = plain("800000 81000400000064 81000400000064 83000400000064");
    let expected = (0, answers, charges([(0, 7), (1, 11)]), "455a56a2d1d014a8".to_string());
    assert_eq!(answered(lengths, queues, 28), expected);
    let joined = "05000100 0200080000000700000064 05000101 01000400000007
                  05000100 01000400000007 05000101 03000400000007";
    assert_eq!(prepared().batch_of_hex(joined, 28), expected);
    assert_eq!(join(&bytes(lengths), &bytes(queues)), Ok(bytes(joined)));
    assert_eq!(encode(&in_turns(&[vec![put(7, 100), get(7)], vec![get(7), delete(7)]])), bytes(joined));
}

#[test]
fn a_desk_without_a_command_is_as_the_empty_batch() {
    let closed = (0, String::new(), NONE, "090fe89309f52ac7".to_string());
    for queues in 0..=PANELS {
        assert_eq!(answered(&"00000000".repeat(queues), "", 0), closed, "{queues} queues");
    }
    assert_eq!(prepared().batch_of_hex("", 0), closed);
}

#[test]
fn a_panel_without_a_command_left_is_passed_over() {
    let expected = (0, "800000".repeat(4), charges([(0, 8), (2, 3)]), "22ad4b08c2069a6a".to_string());
    assert_eq!(answered("00000015 00000000 00000007", &GET.repeat(4), 28), expected);
    // Panels 0, 2, 0, 0: the third read moves the leaf to disk.
    let joined = [0, 2, 0, 0].map(|panel| format!("050001{panel:02x}{GET}")).concat();
    assert_eq!(prepared().batch_of_hex(&joined, 28), expected);
    assert_eq!(join(&bytes("00000015 00000000 00000007"), &bytes(&GET.repeat(4))), Ok(bytes(&joined)));
}

#[test]
fn lengths_are_sixteen_at_most_and_whole() {
    for lengths in 17..=40 {
        assert_eq!(answered(&"00000000".repeat(lengths), "", 0), refused(11), "{lengths} lengths");
    }
    let of_gets = |panels: usize| answered(&"00000007".repeat(panels), &GET.repeat(panels), 7 * panels).0;
    assert_eq!([1, 15, 16, 17, 18, 32].map(of_gets), [0, 0, 0, 11, 11, 11]);
    // A seventeenth of no bytes is one too many all the same.
    assert_eq!(answered(&["00000007".repeat(16), "00000000".into()].concat(), &GET.repeat(16), 112), refused(11));
    for part in ["00", "0000", "000000"] {
        assert_eq!(answered(part, "", 0), refused(11));
        assert_eq!(answered(&["00000007", part].concat(), GET, 7), refused(11));
        assert_eq!(answered(&["00000000".repeat(16), part.into()].concat(), "", 0), refused(11));
    }
}

#[test]
fn lengths_fill_the_queues_exactly() {
    for lengths in ["", "00000000", "00000006", "00000008", "00000007 00000007", "00000000 00000006", "07000000"] {
        assert_eq!(answered(lengths, GET, 7), refused(11), "{lengths}");
    }
    assert_eq!(answered("00000001", "", 0), refused(11));
    // The bytes of a length have their weights.
    for (lengths, expected) in [("00000100", 11), ("00010000", 11), ("01000000", 11), ("00000007", 0)] {
        assert_eq!(answered(lengths, GET, 7).0, expected, "{lengths}");
    }
    let long = GET.repeat(0x0103);
    assert_eq!(answered("00000715", &long, 7 * 0x0103).0, 0, "1,813 bytes");
    assert_eq!(answered("00001507", &long, 7 * 0x0103), refused(11));
}

#[test]
fn lengths_add_up_without_a_wrap() {
    let wrapped = [
        "ffffffff 00000008".to_string(),
        "80000000 80000007".to_string(),
        "00000007 ffffffff 00000001".to_string(),
        "00000007 80000000 80000000".to_string(),
        "10000000".repeat(15) + "10000007",
        "ffffffff".repeat(15) + "00000016",
    ];
    for lengths in wrapped {
        let sum = bytes(&lengths)
            .chunks(4)
            .fold(0u32, |sum, length| sum.wrapping_add(u32::from_be_bytes(length.try_into().expect("whole lengths"))));
        assert_eq!(sum, 7, "{lengths}");
        assert_eq!(answered(&lengths, GET, 7), refused(11), "{lengths}");
    }
    assert_eq!(answered(&"10000000".repeat(16), "", 0), refused(11));
}

#[test]
fn each_queue_is_a_batch_of_its_own() {
    // A command that reaches over a border, wherever that is.
    let put = "0200080000000700000064";
    for (command, length) in [(GET, 7), (put, 11)] {
        for first in 1..length {
            let lengths = format!("{first:08x}{:08x}", length - first);
            assert_eq!(answered(&lengths, command, 7), refused(3), "{command}: {lengths}");
        }
        assert_eq!(answered(&format!("00000000{length:08x}"), command, 7).0, 0);
    }
    for wrong in ["800000", "080000", "0100", "010003000007", "04000a00000000ffffffff0021", "070003000007"] {
        let length = wrong.len() / 2;
        assert_eq!(answered(&format!("{length:08x}"), wrong, 300), refused(3), "{wrong}");
        // Behind a good queue and before one.
        let (lengths, queues) = (format!("00000007{length:08x}00000007"), [GET, wrong, GET].concat());
        assert_eq!(answered(&lengths, &queues, 300), refused(3), "{wrong}");
    }
}

#[test]
fn no_queue_names_a_panel() {
    assert_eq!(answered("00000004", "05000100", 0), refused(3));
    for named in (0..=0x12).chain([0x7F, 0x80, 0xFF]) {
        let panel = format!("050001{named:02x}");
        for queue in [[&panel, GET, GET], [GET, &panel, GET], [GET, GET, &panel]] {
            let queue = queue.concat();
            assert_eq!(answered("00000012", &queue, 14), refused(3), "{queue}");
            assert_eq!(answered("00000007 00000012", &[GET, &queue].concat(), 21), refused(3), "{queue}");
            assert_eq!(answered("00000012 00000007", &[&queue, GET].concat(), 21), refused(3), "{queue}");
        }
        // In the queue of the last panel, alone.
        let lengths = ["00000007".repeat(15), "00000004".into()].concat();
        assert_eq!(answered(&lengths, &[GET.repeat(15), panel].concat(), 105), refused(3), "panel {named}");
    }
}

#[test]
fn the_joined_bytes_are_32768_at_most() {
    let pool = Fixture::prepared(MIN_BLOCKS, FREE).pool;
    let served = |panels: usize, commands: &[Command]| {
        let queue = |panel: usize| commands.iter().skip(panel).step_by(panels).copied().collect();
        let queues: Vec<Vec<Command>> = (0..panels).map(queue).collect();
        let outcome = make(&mut Call::desk(pool.clone(), &queues));
        (outcome.number, outcome.length)
    };
    // With its panel a get has 11 bytes and a put 15: 32,758 of them, 32,768 and 32,769.
    let full = [vec![put(1, 1); 8], vec![get(7); 2_968]].concat();
    assert_eq!(encode(&in_turns(std::slice::from_ref(&full))).len(), 32_768);
    for panels in [1, 2, 15, 16] {
        assert_eq!(served(panels, &vec![get(7); 2_978]), (0, 3 * 2_978), "{panels} panels");
        assert_eq!(served(panels, &full), (0, 3 * 2_969 + 7 * 7), "{panels} panels");
        assert_eq!(served(panels, &vec![get(7); 2_979]), (3, 0), "{panels} panels");
    }
    // As long as a batch may be, but not with panels in it.
    assert_eq!(served(1, &vec![get(7); 4_681]), (3, 0));
    assert_eq!(served(1, &vec![get(7); 4_682]), (3, 0));
}

#[test]
fn answers_have_the_room_of_all_queues_together() {
    assert_eq!(answered("00000007", GET, 6), refused(4));
    let queues = [vec![get(1), scan(9, 0, 2)], vec![], vec![ceiling(1), put(9, 9)], vec![delete(1)]];
    let lent = |bytes: usize| number(Call { answers: vec![0x66; bytes], ..Call::desk(prepared().pool, &queues) });
    let room = 7 + 19 + 11 + 7 + 7;
    assert_eq!([0, room - 1, room].map(lent), [4, 4, 0]);
}

#[test]
fn pool_and_table_are_asked_for_before_the_lengths() {
    let wrong_lengths = Queues { lengths: vec![0], bytes: bytes("05000100") };
    let call = Call { input: Input::Desk(wrong_lengths), ..Call::new(prepared().pool, &[]) };
    assert_eq!(number(call.clone()), 11);
    assert_eq!(number(Call { table: vec![0x77; 4_095], ..call.clone() }), 2);
    assert_eq!(number(Call { table: vec![0x77; 4_095], pool: vec![0xFF; 3 * 16_384], ..call }), 1);
}

#[test]
fn each_of_sixteen_panels_has_its_queue_and_a_charge_of_its_own() {
    // A read costs 1 in both modes; panel p reads p + 1 times.
    let mut fixture = Fixture::prepared(MIN_BLOCKS, [1, 0, 0, 1, 0, 0, 1, 1]);
    let queues: Vec<Vec<Command>> = (1..=PANELS).map(|reads| vec![get(7); reads]).collect();
    let outcome = fixture.desk(&queues);
    assert_eq!(outcome.charges, std::array::from_fn(|at| at as u64 + 1));
    // One panel alone, the others with empty queues or with none.
    for panel in 0..PANELS {
        let mut queues = vec![Vec::new(); panel + 1];
        queues[panel] = vec![get(7), get(7)];
        assert_eq!(prepared().desk(&queues).charges, charges([(panel, 6)]));
        queues.resize(PANELS, Vec::new());
        assert_eq!(prepared().desk(&queues).charges, charges([(panel, 6)]));
    }
}

#[test]
fn answers_come_in_the_order_of_service() {
    // Each command replaces what the one served before it has put.
    let value = |panel: usize, round: u32| 100 * (panel as u32 + 1) + round;
    let queue = |panel: usize| (0..(panel as u32 * 7) % 5).map(|round| put(1, value(panel, round))).collect();
    let queues: Vec<Vec<Command>> = (0..PANELS).map(queue).collect();
    let mut fixture = Fixture::prepared(MIN_BLOCKS, FREE);
    fixture.desk(&queues);
    let served = (0..4).flat_map(|round| (0..PANELS).map(move |panel| (panel, round)));
    let served = served.filter(|&(panel, round)| (round as usize) < queues[panel].len());
    let mut values: Vec<String> = served.map(|(panel, round)| format!("820004{:08x}", value(panel, round))).collect();
    values.pop();
    assert_eq!(fixture.lines(), ["800000".to_string()].into_iter().chain(values).collect::<Vec<_>>());
}

/// Serves puts of key 1, a queue a panel, and gives what each answered, then what the key has.
fn replaced(queues: &[&[u32]]) -> Vec<String> {
    let queues: Vec<Vec<Command>> = queues.iter().map(|values| values.iter().map(|&to| put(1, to)).collect()).collect();
    let mut fixture = Fixture::prepared(MIN_BLOCKS, FREE);
    fixture.desk(&queues);
    let mut lines = fixture.lines();
    fixture.batch(&[get(1)]);
    lines.extend(fixture.lines());
    lines
}

#[test]
fn panels_rise_in_every_round() {
    // Each answer has what the one served before has put: panels 0, 1; 0, 1.
    let two = ["800000", "820004000000a0", "820004000000b0", "820004000000a1", "810004000000b1"];
    assert_eq!(replaced(&[&[0xA0, 0xA1], &[0xB0, 0xB1]]), two);
    // Panels 0, 1, 2; 0, 2; 2.
    let three = [
        "800000",
        "820004000000a0",
        "820004000000b0",
        "820004000000c0",
        "820004000000a1",
        "820004000000c1",
        "810004000000c2",
    ];
    assert_eq!(replaced(&[&[0xA0, 0xA1], &[0xB0], &[0xC0, 0xC1, 0xC2]]), three);
    // Panels 1, 2; 1: panel 0 has nothing to ask.
    assert_eq!(
        replaced(&[&[], &[0xB0, 0xB1], &[0xC0]]),
        ["800000", "820004000000b0", "820004000000c0", "810004000000b1"]
    );
}

#[test]
fn a_put_with_9_at_a_desk_charges_nobody() {
    let mut fixture = prepared();
    fixture.batch(&(0..240).map(|key| put(key, 0)).collect::<Vec<_>>());
    let outcome = fixture.desk(&[vec![], vec![put(240, 0)]]);
    assert_eq!((outcome.number, outcome.charges, fixture.lines()), (0, NONE, vec!["8f000109".to_string()]));
}

/// Serves queues on copies of a pool, as a desk and as the batch of their joined bytes: nothing may differ.
fn check_joined(pool: &[u8], queues: &[Vec<Command>]) -> (Outcome, Vec<u8>) {
    let mut desk = Call::desk(pool.to_vec(), queues);
    let mut batch = Call { input: Input::batch(&in_turns(queues)), ..desk.clone() };
    let outcome = make(&mut desk);
    assert_eq!(outcome, make(&mut batch));
    let same = desk.pool == batch.pool && desk.table == batch.table && desk.answers == batch.answers;
    assert!(same, "a desk leaves other bytes than a batch of {queues:?}");
    (outcome, desk.pool)
}

/// The joined bytes read back: who is served, and with what.
fn service(queues: &[Vec<Command>]) -> Vec<(usize, Command)> {
    let Input::Desk(Queues { lengths, bytes }) = Input::desk(queues) else { panic!("queues are a desk's") };
    let commands = parse(&join(&lengths, &bytes).expect("can be joined")).expect("a batch");
    let (pairs, rest) = commands.as_chunks::<2>();
    assert!(rest.is_empty());
    let turn = |&[named, command]: &[Command; 2]| match named {
        Command::Panel { panel } => (panel, command),
        other => panic!("{other:?} where a panel is named"),
    };
    pairs.iter().map(turn).collect()
}

/// Each panel is served its own queue in order, and none that waits sees sixteen commands of others.
fn check_service(queues: &[Vec<Command>]) {
    let service = service(queues);
    assert_eq!(service.len(), queues.concat().len());
    for (panel, queue) in queues.iter().enumerate() {
        let own = service.iter().filter(|&&(served, _)| served == panel).map(|&(_, command)| command);
        assert!(own.eq(queue.iter().copied()), "panel {panel} of {queues:?}");
        let last = service.iter().rposition(|&(served, _)| served == panel).unwrap_or(0);
        let waits = service[..last].split(|&(served, _)| served == panel).map(<[_]>::len);
        assert!(waits.max() < Some(PANELS), "panel {panel} of {queues:?}");
    }
}

/// Commands distributed to some panels at random, to one of them mostly.
fn distributed(random: &mut Random, commands: &[Command]) -> Vec<Vec<Command>> {
    let mut queues = vec![Vec::new(); random.between(1, PANELS)];
    let busy = random.below(queues.len());
    for command in commands.iter().filter(|command| command.is_answered()) {
        let any = random.below(queues.len());
        queues[random.pick(&[any, any, busy])].push(*command);
    }
    queues
}

#[test]
fn random_queues_are_served_fairly_and_as_their_joined_bytes() {
    let mut random = Random::new(16);
    let (mut several, mut accepted) = (0, 0);
    for _ in 0..60 {
        let Script { mut pool, batches } = Script::random(&mut random, 4).expect("a script");
        for mut commands in batches {
            commands.truncate(1_900);
            let queues = distributed(&mut random, &commands);
            check_service(&queues);
            let (outcome, after) = check_joined(&pool, &queues);
            accepted += usize::from(outcome.number == 0);
            several += usize::from(outcome.panels_charged() > 1);
            pool = after;
        }
    }
    assert!(accepted > 200 && several > 100, "of 240 desks {accepted} are accepted, {several} charge several panels");
}

#[test]
fn every_way_to_fill_four_queues_is_served_fairly() {
    for lengths in (0..4 * 4 * 4 * 4).map(|code| [code % 4, code / 4 % 4, code / 16 % 4, code / 64]) {
        let queues = lengths.map(|length| (0..length).map(get).collect::<Vec<_>>());
        check_service(&queues);
        check_joined(&prepared().pool, &queues);
    }
}

#[test]
fn one_queue_is_a_batch_with_a_panel_before_each_command() {
    let mut random = Random::new(1);
    for _ in 0..40 {
        let Script { pool, batches } = Script::random(&mut random, 1).expect("a script");
        let queue: Vec<Command> = batches.concat().into_iter().filter(Command::is_answered).take(1_900).collect();
        let named: Vec<Command> = queue.iter().flat_map(|&command| [panel(0), command]).collect();
        let run = |call: Call| {
            let mut call = call;
            (make(&mut call), call.pool, call.answers)
        };
        assert!(run(Call::desk(pool.clone(), &[queue])) == run(Call::new(pool, &named)));
    }
}

#[test]
fn a_desk_without_its_lengths_is_refused_with_11_and_not_with_3() {
    assert_eq!(join(&[], &[0x05]), Err(Refusal::QueueLengths));
    assert_eq!(join(&[0, 0, 0, 1], &[0x05]), Err(Refusal::Batch));
    assert_eq!(answered("", "05", 0), refused(11));
    assert_eq!(answered("00000001", "05", 0), refused(3));
}
