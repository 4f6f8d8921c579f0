//! Images as plain text.
use std::fmt::Write;

/// A drawing of so many units, on white.
pub struct Drawing {
    text: String,
}

/// Where a text stands at its place.
#[derive(Clone, Copy)]
pub enum Anchor {
    Start,
    Middle,
    End,
}

impl Anchor {
    fn word(self) -> &'static str {
        match self {
            Anchor::Start => "start",
            Anchor::Middle => "middle",
            Anchor::End => "end",
        }
    }
}

pub const INK: &str = "#2f3640";
pub const FAINT: &str = "#7a8492";

impl Drawing {
    pub fn new(width: u32, height: u32, title: &str) -> Self {
        let mut text = format!("<svg xmlns=\"http://www.w3.org/2000/svg\" viewBox=\"0 0 {width} {height}\" width=\"{width}\" height=\"{height}\" ");
        text += "font-family=\"Helvetica, Arial, sans-serif\">\n";
        let _ = writeln!(text, "<title>{title}</title>");
        let _ = writeln!(text, "<rect width=\"{width}\" height=\"{height}\" fill=\"#ffffff\"/>");
        Drawing { text }
    }

    pub fn rect(&mut self, x: f64, y: f64, width: f64, height: f64, fill: &str, stroke: &str) {
        let _ = writeln!(
            self.text,
            "<rect x=\"{x:.1}\" y=\"{y:.1}\" width=\"{width:.1}\" height=\"{height:.1}\" rx=\"1.5\" fill=\"{fill}\" stroke=\"{stroke}\" stroke-width=\"0.8\"/>"
        );
    }

    pub fn line(&mut self, x1: f64, y1: f64, x2: f64, y2: f64, stroke: &str) {
        let _ = writeln!(self.text, "<line x1=\"{x1:.1}\" y1=\"{y1:.1}\" x2=\"{x2:.1}\" y2=\"{y2:.1}\" stroke=\"{stroke}\" stroke-width=\"0.8\"/>");
    }

    pub fn label(&mut self, x: f64, y: f64, size: u32, anchor: Anchor, fill: &str, words: &str) {
        let anchor = anchor.word();
        let _ = writeln!(self.text, "<text x=\"{x:.1}\" y=\"{y:.1}\" font-size=\"{size}\" text-anchor=\"{anchor}\" fill=\"{fill}\">{words}</text>");
    }

    pub fn finish(self) -> String {
        self.text + "</svg>\n"
    }
}
