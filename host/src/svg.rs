//! Pictures in SVG, written by hand.

use std::fmt::Write;

/// A picture while it is drawn; sizes are pixels from its upper left corner.
pub struct Svg {
    width: f64,
    height: f64,
    body: String,
}

/// Where a text stands at its point.
#[derive(Clone, Copy)]
pub enum Anchor {
    Start,
    Middle,
    End,
}

/// A box: its upper left corner, its width and its height.
#[derive(Clone, Copy)]
pub struct Area {
    pub x: f64,
    pub y: f64,
    pub width: f64,
    pub height: f64,
}

pub const INK: &str = "#222222";
pub const GREY: &str = "#bbbbbb";

impl Svg {
    pub fn new(width: f64, height: f64) -> Svg {
        Svg { width, height, body: String::new() }
    }

    /// A filled box with an outline, and words that show when it is pointed at.
    pub fn area(&mut self, area: Area, fill: &str, outline: &str, title: &str) {
        let Area { x, y, width, height } = area;
        let _ = write!(
            self.body,
            "<rect x=\"{x:.1}\" y=\"{y:.1}\" width=\"{width:.1}\" height=\"{height:.1}\" \
             fill=\"{fill}\" stroke=\"{outline}\">"
        );
        let _ = writeln!(self.body, "<title>{}</title></rect>", escaped(title));
    }

    pub fn line(&mut self, from: (f64, f64), to: (f64, f64), colour: &str) {
        let ((x1, y1), (x2, y2)) = (from, to);
        let _ = writeln!(
            self.body,
            "<line x1=\"{x1:.1}\" y1=\"{y1:.1}\" x2=\"{x2:.1}\" y2=\"{y2:.1}\" stroke=\"{colour}\"/>"
        );
    }

    pub fn text(&mut self, (x, y): (f64, f64), anchor: Anchor, text: &str) {
        let anchor = match anchor {
            Anchor::Start => "start",
            Anchor::Middle => "middle",
            Anchor::End => "end",
        };
        let _ = writeln!(
            self.body,
            "<text x=\"{x:.1}\" y=\"{y:.1}\" text-anchor=\"{anchor}\" fill=\"{INK}\">{}</text>",
            escaped(text)
        );
    }

    /// A small text in the middle above its point.
    pub fn label(&mut self, (x, y): (f64, f64), text: &str) {
        let _ = writeln!(
            self.body,
            "<text x=\"{x:.1}\" y=\"{y:.1}\" text-anchor=\"middle\" font-size=\"9\" fill=\"{INK}\">{}</text>",
            escaped(text)
        );
    }

    /// A text that reads upwards, its middle at the point.
    pub fn upright(&mut self, (x, y): (f64, f64), text: &str) {
        let _ = writeln!(
            self.body,
            "<text transform=\"translate({x:.1} {y:.1}) rotate(-90)\" text-anchor=\"middle\" fill=\"{INK}\">{}</text>",
            escaped(text)
        );
    }

    /// The text of the file.
    pub fn finish(self) -> String {
        let Svg { width, height, body } = self;
        format!(
            "<svg xmlns=\"http://www.w3.org/2000/svg\" width=\"{width:.0}\" height=\"{height:.0}\" \
             viewBox=\"0 0 {width:.0} {height:.0}\" font-family=\"sans-serif\" font-size=\"12\">\n\
             <rect width=\"{width:.0}\" height=\"{height:.0}\" fill=\"#ffffff\"/>\n{body}</svg>\n"
        )
    }
}

/// A text without the characters that mean something in SVG and HTML.
pub fn escaped(text: &str) -> String {
    text.replace('&', "&amp;").replace('<', "&lt;").replace('>', "&gt;").replace('"', "&quot;")
}

#[cfg(test)]
mod tests {
    use super::*;

    #[test]
    fn what_is_drawn_stands_in_the_file() {
        let mut svg = Svg::new(100.0, 50.0);
        svg.area(Area { x: 1.0, y: 2.0, width: 3.0, height: 4.0 }, "#ff0000", INK, "a & b");
        svg.text((5.0, 6.0), Anchor::End, "<1>");
        svg.line((0.0, 0.0), (9.0, 9.0), GREY);
        let file = svg.finish();
        assert!(file.starts_with("<svg xmlns=") && file.ends_with("</svg>\n"));
        for part in ["width=\"3.0\" height=\"4.0\"", "<title>a &amp; b</title>", ">&lt;1&gt;</text>", "x2=\"9.0\""] {
            assert!(file.contains(part), "{part}: {file}");
        }
    }
}
