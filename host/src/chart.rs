//! Charts of bars in SVG.

pub mod stacked;

use crate::markdown::grouped;
use crate::svg::{Anchor, Area, Svg, GREY, INK};

/// What a chart shows: a value of each series for each group.
pub struct Chart {
    /// What the groups are, and what the values are.
    pub x: String,
    pub y: String,
    /// The lines of each group's name.
    pub groups: Vec<Vec<String>>,
    pub series: Vec<(String, Vec<f64>)>,
    /// Bars above this are cut off; their numbers stand on them all the same.
    pub cap: f64,
}

const LEFT: f64 = 76.0;
const RIGHT: f64 = 24.0;
const TOP: f64 = 76.0;
const BOTTOM: f64 = 78.0;
const HEIGHT: f64 = 260.0;
const BAR: f64 = 26.0;
const GAP: f64 = 24.0;
const LEAST_WIDTH: f64 = 620.0;
const COLOURS: [&str; 4] = ["#1f5fa8", "#e08a1e", "#3a9a4b", "#9a4fa0"];

impl Chart {
    /// The chart as bars, a bar a value.
    pub fn bars(&self, title: &str) -> String {
        let groups = self.groups.len() as f64;
        let least = LEAST_WIDTH.max(7.0 * title.len() as f64) / groups;
        let group_width = (BAR * self.series.len() as f64 + GAP).max(7.0 * self.longest_name() + 12.0).max(least);
        let width = LEFT + RIGHT + group_width * groups;
        let scale = Scale::of(self.greatest());
        let mut svg = Svg::new(width, TOP + HEIGHT + BOTTOM);
        svg.text((LEFT, 22.0), Anchor::Start, title);
        self.legend(&mut svg);
        self.axes(&mut svg, width - RIGHT, &scale);
        for (at, name) in self.groups.iter().enumerate() {
            let x = LEFT + group_width * (at as f64 + 0.5);
            for (line, word) in name.iter().enumerate() {
                svg.text((x, TOP + HEIGHT + 18.0 + 14.0 * line as f64), Anchor::Middle, word);
            }
            self.group(&mut svg, at, x - BAR * self.series.len() as f64 / 2.0, &scale);
        }
        svg.finish()
    }

    fn group(&self, svg: &mut Svg, group: usize, left: f64, scale: &Scale) {
        for (at, (name, values)) in self.series.iter().enumerate() {
            let value = values[group];
            let height = scale.height(value.min(self.cap));
            let x = left + BAR * at as f64;
            let area = Area { x: x + 1.0, y: TOP + HEIGHT - height, width: BAR - 2.0, height };
            svg.area(area, COLOURS[at % COLOURS.len()], "none", &format!("{name}: {value}"));
            svg.label((x + BAR / 2.0, area.y - 4.0), &short(value));
            if value > self.cap {
                // A break in the bar: it would go on.
                for y in [area.y + 14.0, area.y + 18.0] {
                    svg.line((x, y), (x + BAR, y - 8.0), "#ffffff");
                }
            }
        }
    }

    fn axes(&self, svg: &mut Svg, right: f64, scale: &Scale) {
        for tick in scale.ticks() {
            let y = TOP + HEIGHT - scale.height(tick);
            svg.line((LEFT, y), (right, y), if tick == 0.0 { INK } else { GREY });
            svg.text((LEFT - 8.0, y + 4.0), Anchor::End, &scale.name(tick));
        }
        svg.line((LEFT, TOP), (LEFT, TOP + HEIGHT), INK);
        svg.upright((20.0, TOP + HEIGHT / 2.0), &self.y);
        svg.text(((LEFT + right) / 2.0, TOP + HEIGHT + BOTTOM - 14.0), Anchor::Middle, &self.x);
    }

    fn legend(&self, svg: &mut Svg) {
        let mut x = LEFT;
        for (at, (name, _)) in self.series.iter().enumerate() {
            let area = Area { x, y: 34.0, width: 12.0, height: 12.0 };
            svg.area(area, COLOURS[at % COLOURS.len()], "none", name);
            svg.text((x + 17.0, 45.0), Anchor::Start, name);
            x += 40.0 + 6.5 * name.len() as f64;
        }
    }

    fn greatest(&self) -> f64 {
        self.series.iter().flat_map(|(_, values)| values).fold(0.0, |most, value| value.min(self.cap).max(most))
    }

    fn longest_name(&self) -> f64 {
        self.groups.iter().flatten().map(String::len).max().unwrap_or(0) as f64
    }
}

/// A scale from 0 with ticks at round numbers.
struct Scale {
    step: f64,
    top: f64,
}

impl Scale {
    /// The scale of at most six ticks that holds a value.
    fn of(greatest: f64) -> Scale {
        let rough = greatest.max(1e-9) / 5.0;
        let power = 10f64.powf(rough.log10().floor());
        let step = power * [1.0, 2.0, 5.0, 10.0].into_iter().find(|times| power * times >= rough).unwrap_or(10.0);
        Scale { step, top: step * (greatest / step).ceil().max(1.0) }
    }

    fn height(&self, value: f64) -> f64 {
        HEIGHT * value / self.top
    }

    /// A tick's number, with as many digits as the step has.
    fn name(&self, tick: f64) -> String {
        match self.step {
            step if step >= 1.0 => grouped(tick.round() as u128),
            step if step >= 0.1 => format!("{tick:.1}"),
            _ => format!("{tick:.2}"),
        }
    }

    fn ticks(&self) -> impl Iterator<Item = f64> + '_ {
        (0..=(self.top / self.step).round() as u32).map(|tick| f64::from(tick) * self.step)
    }
}

/// A number with as many digits as tell it apart.
fn short(value: f64) -> String {
    if value >= 100.0 || value == value.trunc() {
        return grouped(value.round() as u128);
    }
    format!("{value:.*}", if value >= 10.0 { 1 } else { 2 })
}

#[cfg(test)]
mod tests {
    use super::*;

    #[test]
    fn scales_have_round_ticks_and_hold_the_greatest() {
        for (greatest, step, top) in [(1.1, 0.5, 1.5), (4.0, 1.0, 4.0), (417.0, 100.0, 500.0), (7499.0, 2000.0, 8000.0)]
        {
            let scale = Scale::of(greatest);
            assert!((scale.step - step).abs() < 1e-9 && (scale.top - top).abs() < 1e-9, "{greatest}");
            assert!(scale.height(greatest) <= HEIGHT + 1e-9 && scale.ticks().count() <= 6);
        }
    }

    #[test]
    fn every_value_is_a_bar_with_its_number() {
        let chart = Chart {
            x: "device".to_string(),
            y: "charge".to_string(),
            groups: vec![vec!["one".to_string()], vec!["two".to_string(), "more".to_string()]],
            series: vec![("book".to_string(), vec![1.0, 2.5]), ("other".to_string(), vec![3.0, 11.125])],
            cap: 4.0,
        };
        let file = chart.bars("a title");
        for part in ["a title", "device", "charge", "one", "more", "book: 2.5", "other: 11.125", ">11.1<", ">2.50<"] {
            assert!(file.contains(part), "{part}");
        }
        let tallest = format!("height=\"{HEIGHT:.1}\"");
        assert_eq!(file.matches(&tallest).count(), 1, "what is above the cap reaches the top");
    }
}
