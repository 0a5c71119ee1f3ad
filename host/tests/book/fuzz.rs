//! Random cases, with everything but the rarer flaws exercised.

use yokehour_host::fuzz::{case, Tally};
use yokehour_host::random::Random;

/// Cases of a run: about ten seconds for both books on one core.
const CASES: usize = 600;

#[test]
fn random_cases_keep_every_promise() {
    let mut seeds = Random::new(2024);
    let mut tally = Tally::default();
    for _ in 0..CASES {
        let seed = seeds.next_u64();
        case(seed, &mut tally).unwrap_or_else(|why| panic!("{why}\nreplay with: fuzz --case {seed}"));
    }
    for (name, count) in tally.lines() {
        assert!(count > 0 || name.starts_with("flaw"), "{name} was never exercised");
    }
}
