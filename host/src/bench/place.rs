//! Work done at many places of the stack.
//!
//! How the stack stands to the buffers, modulo a page of memory, makes copies slower or faster, by a third and more;
//! each run of a program has it otherwise. So a measurement goes through the places.

/// Places that a page of memory is passed through in.
const PLACES: usize = 256;

/// Does some work at the place of a round, and gives what it returns.
pub fn at_place<T>(round: usize, work: &mut dyn FnMut() -> T) -> T {
    steps_down(round % PLACES, work)
}

/// Does some work so many steps of a few words further down the stack.
#[inline(never)]
fn steps_down<T>(steps: usize, work: &mut dyn FnMut() -> T) -> T {
    let step = std::hint::black_box([0u64; 3]);
    let result = match steps {
        0 => work(),
        _ => steps_down(steps - 1, work),
    };
    // The frame is still in use, so that no step takes the place of the one before.
    std::hint::black_box(&step);
    result
}

#[cfg(test)]
mod tests {
    use super::*;

    #[test]
    fn each_round_stands_further_down_until_they_begin_again() {
        let mut places = Vec::new();
        // One loop, so that all rounds are begun at one place.
        for round in 0..2 * PLACES {
            places.push(at_place(round, &mut || {
                let here = 0u8;
                std::hint::black_box(&raw const here).addr()
            }));
        }
        let (first, second) = places.split_at(PLACES);
        assert!(first.is_sorted_by(|above, below| above > below));
        assert!(first[0] - first[PLACES - 1] > 4096, "a page of memory is passed through");
        assert_eq!(first, second);
    }
}
