//! The elements of an SVG picture, as text.

/// The picture's elements so far.
#[derive(Default)]
pub struct Svg {
    elements: String,
}

const STYLE: &str = "text { font-family: sans-serif; font-size: 11px; fill: #222 }
.title { font-size: 20px; font-weight: bold }
.part { font-size: 15px; font-weight: bold }
.head { font-size: 12px; font-weight: bold }
.small { font-size: 10px; fill: #555 }";

impl Svg {
    /// A text that begins at this place; the class says how large it is.
    pub fn text(&mut self, x: f64, y: f64, class: &str, text: &str) {
        self.anchored(x, y, class, "start", text);
    }

    /// A text that ends at this place.
    pub fn text_before(&mut self, x: f64, y: f64, class: &str, text: &str) {
        self.anchored(x, y, class, "end", text);
    }

    /// A text around this place.
    pub fn text_around(&mut self, x: f64, y: f64, class: &str, text: &str) {
        self.anchored(x, y, class, "middle", text);
    }

    fn anchored(&mut self, x: f64, y: f64, class: &str, anchor: &str, text: &str) {
        let text = escaped(text);
        self.add(&format!(
            r#"<text x="{x:.1}" y="{y:.1}" class="{class}" text-anchor="{anchor}">{text}</text>"#
        ));
    }

    pub fn line(&mut self, from: (f64, f64), to: (f64, f64), colour: &str, width: f64) {
        let ((x1, y1), (x2, y2)) = (from, to);
        self.add(&format!(
            r#"<line x1="{x1:.1}" y1="{y1:.1}" x2="{x2:.1}" y2="{y2:.1}" stroke="{colour}" stroke-width="{width}"/>"#
        ));
    }

    /// A line through these places, broken into dashes where it is told so.
    pub fn path(&mut self, places: &[(f64, f64)], colour: &str, dashes: &str) {
        let places: Vec<String> = (places.iter())
            .map(|(x, y)| format!("{x:.1},{y:.1}"))
            .collect();
        let places = places.join(" ");
        self.add(&format!(
            r#"<polyline points="{places}" fill="none" stroke="{colour}" stroke-width="1.8" stroke-dasharray="{dashes}"/>"#
        ));
    }

    pub fn dot(&mut self, x: f64, y: f64, radius: f64, colour: &str) {
        self.add(&format!(
            r#"<circle cx="{x:.1}" cy="{y:.1}" r="{radius}" fill="{colour}"/>"#
        ));
    }

    fn add(&mut self, element: &str) {
        self.elements.push_str(element);
        self.elements.push('\n');
    }

    /// The whole picture, on white.
    pub fn finish(self, width: f64, height: f64) -> String {
        let head = format!(
            r#"<svg xmlns="http://www.w3.org/2000/svg" width="{width:.0}" height="{height:.0}" viewBox="0 0 {width:.0} {height:.0}">"#
        );
        let ground = r##"<rect width="100%" height="100%" fill="#fff"/>"##;
        let elements = self.elements;
        format!("{head}\n<style>\n{STYLE}\n</style>\n{ground}\n{elements}</svg>\n")
    }
}

fn escaped(text: &str) -> String {
    text.replace('&', "&amp;").replace('<', "&lt;")
}
