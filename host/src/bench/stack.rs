//! The deepest stack of the proved book's calls.

use super::{Rows, Setup};
use crate::books::by_name;
use crate::markdown::{grouped, head};
use crate::stack::CASES;

pub fn rows(setup: &Setup) -> Rows {
    let mut proved = by_name("proved")?;
    let mut rows = vec![head(&["call", "bytes"])];
    for case in &CASES {
        (setup.say)(case.name);
        let bytes = case.deepest(proved.as_mut())?;
        rows.push(vec![case.name.to_string(), grouped(bytes as u128)]);
    }
    Ok(rows)
}
