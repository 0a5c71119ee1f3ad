//! The charges of a ledger: by panel, and by day with a part for each panel.

use crate::chart::stacked::colour;
use crate::layout::PANELS;
use crate::markdown::grouped;
use crate::svg::escaped;
use crate::tool::ledger::{share, Sum, Sums};
use crate::tool::words::counted;

/// Days that are drawn: the last so many.
const MOST_DAYS: usize = 62;

/// The section of the charges, from the ledger of a name.
pub(super) fn section(name: &str, sums: &Sums) -> String {
    let mut out = format!("<section><h2>Charges</h2>\n<p>{}</p>\n", escaped(&head(name, sums)));
    if !sums.wrong.is_empty() {
        let wrong = counted(sums.wrong.len(), "line");
        out.push_str(&format!(
            "<p class=\"bad\">{wrong} of the ledger cannot be read and stand for nothing here.</p>\n"
        ));
    }
    if sums.all.charge() > 0 {
        out.push_str(&format!("<div class=\"charts\">{}{}</div>", by_panel(sums), by_day(sums)));
    }
    out.push_str("</section>\n");
    out
}

fn head(name: &str, sums: &Sums) -> String {
    let Some((first, last)) = sums.span() else { return format!("{name} has no call.") };
    let days = if first == last { format!("on {first}") } else { format!("from {first} to {last}") };
    let pools: Vec<&str> = sums.pools.keys().map(String::as_str).collect();
    let charge = grouped(sums.all.charge());
    format!("{name}: {} {days} on {}; charge {charge}.", counted(sums.all.calls, "call"), pools.join(", "))
}

fn by_panel(sums: &Sums) -> String {
    let most = sums.all.charges.iter().max().copied().unwrap_or(0).max(1);
    let mut out = String::from("<figure><figcaption>By panel</figcaption><table class=\"flat\">");
    for panel in sums.panels() {
        let charge = sums.all.charges[panel];
        let bar = bar(&[(panel, charge)], most);
        let share = share(charge, sums.all.charge());
        out.push_str(&format!(
            "<tr><th>panel {panel}</th><td class=\"wide\">{bar}</td><td>{}</td><td>{share}</td></tr>",
            grouped(charge)
        ));
    }
    out.push_str("</table></figure>\n");
    out
}

fn by_day(sums: &Sums) -> String {
    let most = sums.days.values().map(Sum::charge).max().unwrap_or(0).max(1);
    let hidden = sums.days.len().saturating_sub(MOST_DAYS);
    let title = if hidden > 0 { format!("By day, the last {MOST_DAYS}") } else { "By day".to_string() };
    let mut out = format!("<figure><figcaption>{title}</figcaption><table class=\"flat\">");
    for (day, sum) in sums.days.iter().skip(hidden) {
        let parts: Vec<(usize, u128)> = (0..PANELS).map(|panel| (panel, sum.charges[panel])).collect();
        let bar = bar(&parts, most);
        let charge = grouped(sum.charge());
        out.push_str(&format!("<tr><th>{day}</th><td class=\"wide\">{bar}</td><td>{charge}</td></tr>"));
    }
    out.push_str("</table></figure>\n");
    out
}

/// A bar with a part for each panel that is charged.
fn bar(parts: &[(usize, u128)], most: u128) -> String {
    let part = |(panel, charge): &(usize, u128)| {
        let width = 100.0 * *charge as f64 / most as f64;
        let words = format!("panel {panel}: {}", grouped(*charge));
        format!("<i style=\"width:{width:.2}%;background:{}\" title=\"{words}\"></i>", colour(*panel))
    };
    let parts: String = parts.iter().filter(|(_, charge)| *charge > 0).map(part).collect();
    format!("<div class=\"part\">{parts}</div>")
}
