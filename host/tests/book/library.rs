//! The proved book is linked, or the run says that it is not.

use yokehour_host::books::proved_to_compare;

#[test]
fn the_proved_book_is_here() {
    if let Err(missing) = proved_to_compare() {
        panic!("{missing}");
    }
}
