//! A sheet of SVG: shapes and text, each with what it means where one points at it.

use std::fmt::Write;

/// SVG under way.
#[derive(Default)]
pub struct Canvas {
    svg: String,
}

/// How text stands.
#[derive(Clone, Copy)]
pub struct Font {
    pub size: f64,
    pub bold: bool,
    pub colour: &'static str,
    /// "start", "middle" or "end".
    pub anchor: &'static str,
}

impl Font {
    pub const fn new(size: f64, colour: &'static str) -> Font {
        Font { size, bold: false, colour, anchor: "start" }
    }

    pub const fn bold(self) -> Font {
        Font { bold: true, ..self }
    }

    pub const fn middle(self) -> Font {
        Font { anchor: "middle", ..self }
    }

    pub const fn end(self) -> Font {
        Font { anchor: "end", ..self }
    }

    /// About how wide a text is.
    pub fn width(&self, text: &str) -> f64 {
        let per_letter = if self.bold { 0.62 } else { 0.55 };
        text.chars().count() as f64 * self.size * per_letter
    }
}

impl Canvas {
    /// Puts SVG as it is.
    pub fn raw(&mut self, svg: &str) {
        self.svg.push_str(svg);
        self.svg.push('\n');
    }

    /// A shape, and what it means.
    fn shape(&mut self, shape: &str, meaning: &str) {
        match meaning {
            "" => writeln!(self.svg, "<{shape}/>"),
            _ => {
                writeln!(self.svg, "<{shape}><title>{}</title></{}>", escaped(meaning), tag(shape))
            }
        }
        .expect("a string takes all");
    }

    pub fn rectangle(&mut self, at: (f64, f64), size: (f64, f64), style: &str, meaning: &str) {
        let ((x, y), (w, h)) = (at, size);
        self.shape(
            &format!(r#"rect x="{x:.1}" y="{y:.1}" width="{w:.1}" height="{h:.1}" {style}"#),
            meaning,
        );
    }

    pub fn line(&mut self, from: (f64, f64), to: (f64, f64), style: &str, meaning: &str) {
        let ((x1, y1), (x2, y2)) = (from, to);
        self.shape(
            &format!(r#"line x1="{x1:.1}" y1="{y1:.1}" x2="{x2:.1}" y2="{y2:.1}" {style}"#),
            meaning,
        );
    }

    pub fn circle(&mut self, at: (f64, f64), radius: f64, style: &str, meaning: &str) {
        let (x, y) = at;
        self.shape(&format!(r#"circle cx="{x:.1}" cy="{y:.1}" r="{radius:.1}" {style}"#), meaning);
    }

    /// A closed shape through these points.
    pub fn polygon(&mut self, points: &[(f64, f64)], style: &str, meaning: &str) {
        let points: Vec<String> = points.iter().map(|(x, y)| format!("{x:.1},{y:.1}")).collect();
        self.shape(&format!(r#"polygon points="{}" {style}"#, points.join(" ")), meaning);
    }

    /// A diamond around a point.
    pub fn diamond(&mut self, (x, y): (f64, f64), half: f64, style: &str, meaning: &str) {
        let points = [(x - half, y), (x, y - half), (x + half, y), (x, y + half)];
        self.polygon(&points, style, meaning);
    }

    /// A cross around a point.
    pub fn cross(&mut self, (x, y): (f64, f64), half: f64, style: &str, meaning: &str) {
        self.line((x - half, y - half), (x + half, y + half), style, meaning);
        self.line((x - half, y + half), (x + half, y - half), style, meaning);
    }

    pub fn text(&mut self, at: (f64, f64), font: Font, text: &str) {
        let ((x, y), Font { size, colour, anchor, bold }) = (at, font);
        let weight = if bold { r#" font-weight="600""# } else { "" };
        writeln!(
            self.svg,
            r#"<text x="{x:.1}" y="{y:.1}" font-size="{size}" fill="{colour}" text-anchor="{anchor}"{weight}>{}</text>"#,
            escaped(text)
        )
        .expect("a string takes all");
    }

    /// Text in lines of at most this width; gives back where the next line would stand.
    pub fn paragraph(&mut self, at: (f64, f64), width: f64, font: Font, text: &str) -> f64 {
        let (x, mut y) = at;
        let mut line = String::new();
        for word in text.split_whitespace() {
            if !line.is_empty() && font.width(&format!("{line} {word}")) > width {
                self.text((x, y), font, &line);
                y += font.size * 1.4;
                line.clear();
            }
            if !line.is_empty() {
                line.push(' ');
            }
            line.push_str(word);
        }
        self.text((x, y), font, &line);
        y + font.size * 1.4
    }

    /// The whole file.
    pub fn finish(self, width: f64, height: f64, title: &str) -> String {
        format!(
            "<svg xmlns=\"http://www.w3.org/2000/svg\" width=\"{width:.0}\" height=\"{height:.0}\" \
             viewBox=\"0 0 {width:.0} {height:.0}\" font-family=\"'DejaVu Sans', Verdana, Helvetica, sans-serif\">\n\
             <title>{}</title>\n{}</svg>\n",
            escaped(title),
            self.svg
        )
    }
}

/// The name of a shape.
fn tag(shape: &str) -> &str {
    shape.split(' ').next().unwrap_or(shape)
}

fn escaped(text: &str) -> String {
    text.replace('&', "&amp;").replace('<', "&lt;").replace('>', "&gt;")
}
