//! Foreign pools open as what they spell; each flaw has its number, on both books.

use crate::common::number_of;
use yokehour_host::account::Mode;
use yokehour_host::audit::add_wraps;
use yokehour_host::damage;
use yokehour_host::foreign::{self, flaw::FLAWS, Build, PoolStyle, BRINK_BLOCKS, DEEP_BLOCKS};
use yokehour_host::layout::{node_limit, BLOCK_PAGES, MAX_BLOCKS, MAX_LEVELS, MAX_LOG_PAGES, MIN_BLOCKS, PAGE_BYTES};
use yokehour_host::mount::mount;
use yokehour_host::node::Node;
use yokehour_host::page::{is_blank, sums_wrap};
use yokehour_host::random::Random;
use yokehour_host::refusal::Refusal;

#[test]
fn foreign_pools_open_as_what_they_spell() {
    let mut random = Random::new(7);
    for round in 0..400 {
        let style = match round % 20 {
            0 => PoolStyle { blocks: MAX_BLOCKS, build: Build::Any },
            1 | 2 => PoolStyle { blocks: random.between(BRINK_BLOCKS, 20), build: Build::Brink },
            3..=6 => PoolStyle { blocks: random.between(MIN_BLOCKS, 12), build: Build::Tight },
            7..=9 => PoolStyle { blocks: random.between(MIN_BLOCKS, 12), build: Build::High },
            _ => PoolStyle { blocks: random.between(MIN_BLOCKS, 12), build: Build::Any },
        };
        let foreign = foreign::make(&mut random, style);
        let mounted = mount(&foreign.pool).unwrap_or_else(|fault| panic!("round {round}: {fault}"));
        assert_eq!(mounted.nodes, foreign.paper.nodes);
        assert_eq!(mounted.rows.iter().map(|row| row.account).collect::<Vec<_>>(), foreign.paper.accounts);
        assert_eq!(mounted.tariff, foreign.paper.tariff);
        assert_eq!(number_of(foreign.pool), 0, "round {round}");
    }
}

#[test]
fn tight_pools_have_one_blank_block_and_many_nodes_on_three_pages() {
    let foreign = foreign::make(&mut Random::new(1), PoolStyle { blocks: 8, build: Build::Tight });
    let mounted = mount(&foreign.pool).expect("opens");
    assert_eq!(mounted.written.iter().filter(|&&written| written == BLOCK_PAGES).count(), 7);
    assert!(mounted.nodes.len() > 50);
    assert!(mounted.rows.iter().all(|row| row.account.mode == Mode::Log));
    assert!(mounted.rows.iter().filter(|row| row.pages.len() == MAX_LOG_PAGES).count() > 10);
    assert_eq!(number_of(foreign.pool), 0);
}

#[test]
fn high_pools_have_pages_whose_sums_wrap() {
    let mut random = Random::new(1);
    let mut wrapped = [0; 2];
    for _ in 0..20 {
        let foreign = foreign::make(&mut random, PoolStyle { blocks: 8, build: Build::High });
        let keys = foreign.paper.nodes.iter().flat_map(|node| &node.pairs).map(|pair| pair.key);
        assert!(keys.min().is_none_or(|least| least >= 0xFFFF_0000));
        for page in foreign.pool.chunks_exact(PAGE_BYTES).filter(|page| !is_blank(page)) {
            add_wraps(&mut wrapped, sums_wrap(page));
        }
        assert_eq!(number_of(foreign.pool), 0);
    }
    let [of_b, of_a] = wrapped;
    assert!(of_b > 1000 && of_a > 100, "b wraps on {of_b} pages, a on {of_a}");
}

#[test]
fn deep_pools_have_nine_levels_in_log_mode_and_room_for_a_split() {
    for blocks in [DEEP_BLOCKS, MAX_BLOCKS] {
        let foreign = foreign::make(&mut Random::new(5), PoolStyle { blocks, build: Build::Deep });
        let mounted = mount(&foreign.pool).expect("opens");
        assert_eq!(leftmost_path(&mounted.nodes).len(), MAX_LEVELS);
        assert!(mounted.rows.iter().all(|row| row.account.mode == Mode::Log));
        let full = leftmost_path(&mounted.nodes).into_iter().filter(|node| !node.is_leaf() && node.is_full());
        assert_eq!((full.count(), mounted.nodes.len()), (2, 603));
        assert!(mounted.nodes.len() + 3 <= node_limit(blocks), "the two and a leaf can split");
        assert_eq!(number_of(foreign.pool), 0);
    }
}

/// The nodes from the root to the first leaf.
fn leftmost_path(nodes: &[Node]) -> Vec<&Node> {
    let below = |node: &&Node| (!node.is_leaf()).then(|| &nodes[node.child(0) as usize]);
    std::iter::successors(nodes.first(), below).collect()
}

#[test]
fn every_flaw_has_its_number() {
    let mut random = Random::new(11);
    for flaw in FLAWS {
        let mut made = 0;
        for _ in 0..400 {
            let style = PoolStyle { blocks: random.between(MIN_BLOCKS, 10), build: Build::Any };
            let Some(pool) = flaw.make(&mut random, style) else { continue };
            let fault = mount(&pool).err();
            assert_eq!(number_of(pool), flaw.number, "{}: {fault:?}", flaw.name);
            assert_eq!(fault.map(|fault| fault.refusal.number()), Some(flaw.number), "{}", flaw.name);
            made += 1;
            if made == 20 {
                break;
            }
        }
        assert!(made >= 3, "{} was made {made} times", flaw.name);
    }
}

#[test]
fn no_changed_byte_escapes() {
    let mut random = Random::new(3);
    for _ in 0..300 {
        let mut pool = foreign::make(&mut random, PoolStyle { blocks: MIN_BLOCKS, build: Build::Any }).pool;
        damage::change_byte(&mut random, &mut pool);
        assert_eq!(mount(&pool).err().map(|fault| fault.refusal), Some(Refusal::Pages));
        assert_eq!(number_of(pool), Refusal::Pages.number());
    }
}
