//! Bars whose parts stand one on the other.

use super::{short, Scale, BOTTOM, HEIGHT, LEFT, RIGHT, TOP};
use crate::markdown::grouped;
use crate::svg::{Anchor, Area, Svg, GREY, INK};

/// What a chart of stacked bars shows.
pub struct Stacked {
    /// What the places are, and what the values are.
    pub x: String,
    pub y: String,
    /// The number that a series has its colour by, and its name.
    pub series: Vec<(usize, String)>,
    /// How many places a bar may stand at, and the name of each.
    pub places: usize,
    pub name: Box<dyn Fn(usize) -> String>,
    /// The place of each bar, and its part of each series from the bottom up.
    pub bars: Vec<(usize, Vec<f64>)>,
}

const WIDTH: f64 = 880.0;
const WIDEST_BAR: f64 = 48.0;
const LABEL: f64 = 84.0;
const LEGEND_WIDTH: f64 = 96.0;
const LEGEND_ROW: f64 = 18.0;

/// The colour of a series: hues that follow each other are far apart.
pub fn colour(series: usize) -> String {
    let (hue, light) = ((212.0 + 137.5 * series as f64) % 360.0, if series.is_multiple_of(2) { 48 } else { 64 });
    format!("hsl({hue:.0},40%,{light}%)")
}

impl Stacked {
    /// The picture; bars are as wide as the places allow, and as many places are named as there is room for.
    pub fn drawn(&self, title: &str) -> String {
        let top = TOP + LEGEND_ROW * (self.legend_rows() - 1) as f64;
        let mut svg = Svg::new(LEFT + WIDTH + RIGHT, top + HEIGHT + BOTTOM);
        let scale = Scale::of(self.bars.iter().map(|(_, parts)| parts.iter().sum()).fold(0.0, f64::max));
        svg.text((LEFT, 22.0), Anchor::Start, title);
        self.legend(&mut svg);
        self.axes(&mut svg, top, &scale);
        self.names(&mut svg, top + HEIGHT);
        for (place, parts) in &self.bars {
            self.bar(&mut svg, top + HEIGHT, *place, parts, &scale);
        }
        svg.finish()
    }

    fn step(&self) -> f64 {
        WIDTH / self.places.max(1) as f64
    }

    fn legend_rows(&self) -> usize {
        self.series.len().div_ceil(per_row()).max(1)
    }

    fn legend(&self, svg: &mut Svg) {
        for (at, (series, name)) in self.series.iter().enumerate() {
            let x = LEFT + LEGEND_WIDTH * (at % per_row()) as f64;
            let y = 34.0 + LEGEND_ROW * (at / per_row()) as f64;
            svg.area(Area { x, y, width: 12.0, height: 12.0 }, &colour(*series), "none", name);
            svg.text((x + 17.0, y + 11.0), Anchor::Start, name);
        }
    }

    fn axes(&self, svg: &mut Svg, top: f64, scale: &Scale) {
        for tick in scale.ticks() {
            let y = top + HEIGHT - scale.height(tick);
            svg.line((LEFT, y), (LEFT + WIDTH, y), if tick == 0.0 { INK } else { GREY });
            svg.text((LEFT - 8.0, y + 4.0), Anchor::End, &scale.name(tick));
        }
        svg.upright((20.0, top + HEIGHT / 2.0), &self.y);
        svg.text((LEFT + WIDTH / 2.0, top + HEIGHT + BOTTOM - 30.0), Anchor::Middle, &self.x);
    }

    fn names(&self, svg: &mut Svg, bottom: f64) {
        let every = (LABEL / self.step()).ceil().max(1.0) as usize;
        for place in (0..self.places).step_by(every) {
            let x = LEFT + self.step() * (place as f64 + 0.5);
            svg.text((x, bottom + 18.0), Anchor::Middle, &(self.name)(place));
        }
    }

    fn bar(&self, svg: &mut Svg, bottom: f64, place: usize, parts: &[f64], scale: &Scale) {
        let width = (0.8 * self.step()).clamp(1.0, WIDEST_BAR);
        let x = LEFT + self.step() * (place as f64 + 0.5) - width / 2.0;
        let mut y = bottom;
        for ((series, name), &part) in self.series.iter().zip(parts).filter(|(_, &part)| part > 0.0) {
            let height = scale.height(part);
            y -= height;
            let words = format!("{name}, {}: {}", (self.name)(place), grouped(part as u128));
            svg.area(Area { x, y, width, height }, &colour(*series), "none", &words);
        }
        if width >= 24.0 {
            svg.label((x + width / 2.0, y - 4.0), &short(parts.iter().sum()));
        }
    }
}

/// Names in a row of the legend.
fn per_row() -> usize {
    (WIDTH / LEGEND_WIDTH) as usize
}

#[cfg(test)]
mod tests {
    use super::*;

    fn chart(places: usize, bars: Vec<(usize, Vec<f64>)>) -> String {
        let series = vec![(0, "one".to_string()), (3, "two".to_string())];
        let name = Box::new(|place: usize| format!("place {place}"));
        Stacked { x: "x".into(), y: "y".into(), series, places, name, bars }.drawn("a title")
    }

    #[test]
    fn parts_stand_one_on_the_other() {
        let drawn = chart(2, vec![(0, vec![30.0, 70.0]), (1, vec![0.0, 100.0])]);
        let (low, high) = (format!("height=\"{:.1}\"", 0.3 * HEIGHT), format!("height=\"{:.1}\"", 0.7 * HEIGHT));
        let bottom = TOP + HEIGHT;
        assert!(drawn.contains(&format!("y=\"{:.1}\" width=\"48.0\" {low}", bottom - 0.3 * HEIGHT)), "{drawn}");
        assert!(drawn.contains(&format!("y=\"{:.1}\" width=\"48.0\" {high}", bottom - HEIGHT)), "{drawn}");
        assert!(drawn.contains("<title>two, place 1: 100</title>"));
        assert!(!drawn.contains("one, place 1"), "a part that is nothing is not drawn");
        assert_eq!(drawn.matches(&colour(3)).count(), 3, "twice as a part, once in the legend");
    }

    #[test]
    fn any_number_of_places_is_drawn_in_one_width() {
        for places in [0, 1, 30, 400, 4_000_000] {
            let drawn = chart(places, vec![(places.max(1) - 1, vec![1.0, 1.0])]);
            assert!(drawn.matches("place ").count() < 20, "{places}");
            assert!(drawn.contains("width=\"980\""), "{places}");
        }
    }

    #[test]
    fn sixteen_series_have_sixteen_colours() {
        let mut colours: Vec<String> = (0..16).map(colour).collect();
        colours.sort();
        colours.dedup();
        assert_eq!(colours.len(), 16);
    }
}
