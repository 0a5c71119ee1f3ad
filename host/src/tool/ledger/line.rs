//! A line of a ledger: one accepted call, and what it cost each panel.

use crate::calendar::{day_of, Day};
use crate::layout::PANELS;

/// One accepted call.
#[derive(Clone, PartialEq, Eq, Debug)]
pub(in crate::tool) struct Line {
    /// In UTC, as the calendar writes it.
    pub time: String,
    /// The pool's name, as it was given.
    pub pool: String,
    /// The book's call: batch or desk.
    pub call: String,
    pub charges: [u64; PANELS],
}

/// The first line of a ledger.
pub(in crate::tool) fn heading() -> String {
    let panels = (0..PANELS).map(|panel| format!(",panel {panel}"));
    format!("time,pool,call{}\n", panels.collect::<String>())
}

impl Line {
    /// The line as comma-separated values, with its end.
    pub fn csv(&self) -> String {
        let charges = self.charges.iter().map(|charge| format!(",{charge}"));
        format!("{},{},{}{}\n", self.time, quoted(&self.pool), self.call, charges.collect::<String>())
    }

    /// Reads a line, or says what is wrong with it.
    pub fn parse(line: &str) -> Result<Line, String> {
        let fields = fields(line)?;
        let [time, pool, call, charges @ ..] = &fields[..] else {
            return Err("a time, a pool, a call and sixteen charges expected".to_string());
        };
        day_of(time).ok_or_else(|| format!("a time in UTC expected, as 2026-11-17T20:52:12Z is one, not {time:?}"))?;
        let charge = |word: &String| word.parse().map_err(|_| format!("a charge expected, not {word:?}"));
        let charges = charges.iter().map(charge).collect::<Result<Vec<u64>, String>>()?;
        let count = charges.len();
        let charges = charges.try_into().map_err(|_| format!("sixteen charges expected, not {count}"))?;
        Ok(Line { time: time.clone(), pool: pool.clone(), call: call.clone(), charges })
    }

    /// The day of the call.
    pub fn day(&self) -> Day {
        day_of(&self.time).unwrap_or(Day(0))
    }
}

/// A name as a field; one with a comma or a quote stands in quotes, and no name takes more than its line.
fn quoted(name: &str) -> String {
    let plain: String = name.chars().map(|letter| if letter.is_control() { '\u{FFFD}' } else { letter }).collect();
    match plain.contains([',', '"']) {
        true => format!("\"{}\"", plain.replace('"', "\"\"")),
        false => plain,
    }
}

/// The fields of a line, out of their quotes.
fn fields(line: &str) -> Result<Vec<String>, String> {
    let (mut fields, mut in_quotes, mut after_quote) = (vec![String::new()], false, false);
    for letter in line.chars() {
        let field = fields.last_mut().expect("one at least");
        match (letter, in_quotes) {
            (',', false) => fields.push(String::new()),
            ('"', false) if after_quote => {
                // Two quotes are one that is meant.
                field.push('"');
                in_quotes = true;
            }
            ('"', _) => in_quotes = !in_quotes,
            _ => field.push(letter),
        }
        after_quote = letter == '"' && !in_quotes;
    }
    match in_quotes {
        true => Err("a quote that does not end".to_string()),
        false => Ok(fields),
    }
}

#[cfg(test)]
mod tests {
    use super::*;

    #[test]
    fn a_line_is_read_as_it_was_written() {
        for pool in ["gym.pool", "a,b", "say \"one\", two", "\"", ",", ""] {
            let charges = std::array::from_fn(|panel| 10 * panel as u64);
            let line = Line { time: "2026-11-17T20:52:12Z".into(), pool: pool.into(), call: "desk".into(), charges };
            let csv = line.csv();
            assert_eq!(csv.matches('\n').count(), 1, "{csv}");
            assert_eq!(Line::parse(csv.trim_end()), Ok(line));
        }
        let charges = [0; PANELS];
        let line = Line { time: String::new(), pool: "two\nlines".into(), call: String::new(), charges };
        assert_eq!(line.csv().matches('\n').count(), 1);
    }

    #[test]
    fn a_wrong_line_is_told() {
        let good = format!("2026-11-17T20:52:12Z,p,batch{}", ",1".repeat(16));
        assert!(Line::parse(&good).is_ok_and(|line| line.charges == [1; PANELS] && line.day() == Day(20_774)));
        for (wrong, why) in [
            ("", "sixteen charges expected"),
            (&good[1..], "a time in UTC expected"),
            (&good[..good.len() - 2], "not 15"),
            (&format!("{good},1"), "not 17"),
            (&good.replacen(",1", ",-1", 1), "a charge expected"),
            (&good.replacen("p,", "\"p,", 1), "a quote that does not end"),
        ] {
            let said = Line::parse(wrong).expect_err(wrong);
            assert!(said.contains(why), "{wrong}: {said}");
        }
        assert!(Line::parse(heading().trim_end()).is_err());
    }
}
