//! Tables in Markdown.

/// A table of these rows; the first is its head.
pub fn table(rows: &[Vec<String>]) -> String {
    let mut out = String::new();
    for (at, row) in rows.iter().enumerate() {
        out.push_str(&format!("| {} |\n", row.join(" | ")));
        if at == 0 {
            out.push_str(&format!("|{}\n", "---|".repeat(row.len())));
        }
    }
    out
}

/// The head of a table.
pub fn head(words: &[&str]) -> Vec<String> {
    words.iter().map(|word| word.to_string()).collect()
}

/// A whole number with a comma before every three digits.
pub fn grouped(number: u128) -> String {
    let digits = number.to_string();
    let comma = |at: usize| at > 0 && (digits.len() - at).is_multiple_of(3);
    let digit = |(at, digit): (usize, char)| comma(at).then_some(',').into_iter().chain([digit]);
    digits.chars().enumerate().flat_map(digit).collect()
}

#[cfg(test)]
mod tests {
    use super::*;

    #[test]
    fn the_first_row_is_the_head() {
        let rows = [head(&["what", "bytes"]), vec!["a".to_string(), "1".to_string()]];
        assert_eq!(table(&rows), "| what | bytes |\n|---|---|\n| a | 1 |\n");
    }

    #[test]
    fn digits_stand_in_threes() {
        let words = [0, 999, 1000, 52_640, 1_048_576].map(grouped);
        assert_eq!(words, ["0", "999", "1,000", "52,640", "1,048,576"]);
    }
}
