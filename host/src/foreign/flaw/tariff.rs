//! Flaws in the tariff and the scores.

use crate::foreign::spelling::Spelling;
use crate::layout::MAX_TARIFF;
use crate::random::Random;

pub(super) fn score_at_limit(random: &mut Random, spelling: &mut Spelling, _: usize) -> bool {
    let limit = spelling.tariff[6] + spelling.tariff[7];
    let id = random.below(spelling.accounts.len());
    spelling.accounts[id].score = random.pick(&[limit, limit + 1, u32::MAX]);
    true
}

pub(super) fn tariff_out_of_range(random: &mut Random, spelling: &mut Spelling, _: usize) -> bool {
    let at = random.below(8);
    spelling.tariff[at] = if at >= 6 && random.once_in(2) { 0 } else { random.pick(&[MAX_TARIFF + 1, u32::MAX]) };
    true
}
