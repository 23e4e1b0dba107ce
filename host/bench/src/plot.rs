//! Cost against filling as SVG: small, without anything from elsewhere, readable on light and dark pages.

use crate::measure::{CHECK, LENT, PARTS, PROVED, Times};
use std::fmt::Write;

const WIDTH: f64 = 660.0;
const HEIGHT: f64 = 330.0;
/// The field in which the lines are: left, top, right, bottom.
const FIELD: [f64; 4] = [64.0, 44.0, 470.0, 282.0];

/// The lines: column, colours on light and dark, and what they say.
const LINES: [(usize, &str, &str, &str); 3] = [
    (PROVED, "proved", "#0b63c5", "#6cb2ff"),
    (LENT, "lent", "#b4530a", "#ffb067"),
    (CHECK, "check", "#5b6673", "#aab4c0"),
];
const WORDS: [&str; 3] = ["proved station", "plain Rust, lent store", "the proved check alone"];

/// The plot of the times of each part.
pub fn svg(n: u8, statements: usize, parts: &[Times; PARTS]) -> String {
    let [left, top, right, bottom] = FIELD;
    let most = parts.iter().map(|times| times[PROVED].max(times[LENT])).fold(1.0, f64::max);
    let step = step(most);
    let rows = (most / step).ceil();
    let x = |held: f64| left + (right - left) * held / statements as f64;
    let y = |ns: f64| bottom - (bottom - top) * ns / (rows * step);
    let mut svg = format!(
        "<svg xmlns=\"http://www.w3.org/2000/svg\" width=\"{WIDTH}\" height=\"{HEIGHT}\" viewBox=\"0 0 {WIDTH} {HEIGHT}\" \
         font-family=\"'DejaVu Sans', Verdana, Helvetica, sans-serif\" font-size=\"12\">\n\
         <title>Time of an input against what the store holds, n = {n}</title>\n<style>\n{}</style>\n\
         <rect class=\"page\" width=\"{WIDTH}\" height=\"{HEIGHT}\"/>\n\
         <text class=\"ink\" x=\"16\" y=\"24\">ns per input, by how many statements the store holds (n = {n})</text>\n",
        style()
    );
    let mut put = |line: String| writeln!(svg, "{line}").expect("a string takes all");
    for row in 0..=rows as u32 {
        let ns = f64::from(row) * step;
        let at = y(ns);
        put(format!(
            r#"<line class="grid" x1="{left}" y1="{at:.1}" x2="{right}" y2="{at:.1}"/><text class="faint" x="{}" y="{:.1}" text-anchor="end">{ns:.0}</text>"#,
            left - 8.0,
            at + 4.0
        ));
    }
    for part in 0..=PARTS {
        let held = statements * part / PARTS;
        put(format!(
            r#"<text class="faint" x="{:.1}" y="{}" text-anchor="middle">{held}</text>"#,
            x(held as f64),
            bottom + 18.0
        ));
    }
    put(format!(
        r#"<text class="faint" x="{:.1}" y="{}" text-anchor="middle">statements held</text>"#,
        (left + right) / 2.0,
        bottom + 38.0
    ));
    // a part's time stands over its middle
    let middle = |part: usize| x(statements as f64 * (part as f64 + 0.5) / PARTS as f64);
    let mut labels: Vec<f64> =
        LINES.iter().map(|(column, ..)| y(parts[PARTS - 1][*column])).collect();
    apart(&mut labels);
    for (((column, class, ..), words), label) in LINES.iter().zip(WORDS).zip(labels) {
        let points: Vec<String> = (0..PARTS)
            .map(|part| format!("{:.1},{:.1}", middle(part), y(parts[part][*column])))
            .collect();
        put(format!(r#"<polyline class="{class}" points="{}"/>"#, points.join(" ")));
        for (part, times) in parts.iter().enumerate() {
            let (at, ns) = (y(times[*column]), times[*column]);
            put(format!(
                r#"<circle class="{class}" cx="{:.1}" cy="{at:.1}" r="2.5"><title>{words}: {ns:.0} ns</title></circle>"#,
                middle(part)
            ));
        }
        put(format!(
            r#"<text class="{class}" x="{}" y="{:.1}">{words}</text>"#,
            right + 8.0,
            label + 4.0
        ));
    }
    svg.push_str("</svg>\n");
    svg
}

/// Between two lines of the grid: 1, 2 or 5 and zeros, so that there are at most eight.
fn step(most: f64) -> f64 {
    let tens = (1..9).map(|zeros| 10f64.powi(zeros));
    let mut steps = tens.flat_map(|ten| [ten, 2.0 * ten, 5.0 * ten]);
    steps.find(|step| most / step <= 8.0).unwrap_or(1e9)
}

/// Moves labels down where they would stand on one another.
fn apart(labels: &mut [f64]) {
    let mut order: Vec<usize> = (0..labels.len()).collect();
    order.sort_by(|a, b| labels[*a].total_cmp(&labels[*b]));
    for pair in order.windows(2) {
        labels[pair[1]] = labels[pair[1]].max(labels[pair[0]] + 16.0);
    }
}

fn style() -> String {
    let colours = |page: &str, ink: &str, faint: &str, grid: &str, dark: bool| {
        let mut rules = format!(
            ".page{{fill:{page}}} .ink{{fill:{ink}}} .faint{{fill:{faint}}} .grid{{stroke:{grid}}}"
        );
        for (_, class, light, night) in LINES {
            let colour = if dark { night } else { light };
            let _ = write!(
                rules,
                " polyline.{class}{{stroke:{colour}}} circle.{class},text.{class}{{fill:{colour}}}"
            );
        }
        rules
    };
    format!(
        "polyline{{fill:none;stroke-width:2}} polyline.check{{stroke-dasharray:5 4}}\n{}\n@media (prefers-color-scheme: dark){{{}}}\n",
        colours("#ffffff", "#1c2530", "#5b6673", "#e3e7ec", false),
        colours("#14181d", "#e8edf2", "#aab4c0", "#2c343d", true)
    )
}

#[cfg(test)]
mod tests {
    use super::*;

    /// Three lines of a point for each part, all of them in the field, with labels that stand apart.
    #[test]
    fn lines_are_in_the_field() {
        let parts = std::array::from_fn(|part| {
            let more = 2_000.0 * part as f64;
            [1_900.0 + more, 1_700.0 + more, 1_700.0 + more, 90.0]
        });
        let svg = svg(3, 128, &parts);
        let points = |line: &str| -> Vec<(f64, f64)> {
            let points = line.split("points=\"").nth(1).and_then(|rest| rest.split('"').next());
            let number = |word: &str| word.parse::<f64>().unwrap();
            let pairs = points.unwrap().split(' ').map(|pair| pair.split_once(',').unwrap());
            pairs.map(|(x, y)| (number(x), number(y))).collect()
        };
        let lines: Vec<_> = svg.lines().filter(|line| line.starts_with("<polyline")).collect();
        assert_eq!(lines.len(), LINES.len());
        let [left, top, right, bottom] = FIELD;
        for line in lines {
            let points = points(line);
            assert_eq!(points.len(), PARTS);
            assert!(points.iter().all(|(x, _)| (left..=right).contains(x)));
            assert!(points.iter().all(|(_, y)| (top..=bottom).contains(y)));
            assert!(points.is_sorted_by(|one, two| one.0 < two.0 && one.1 > two.1));
        }
        let mut labels = [100.0, 101.0, 99.0];
        apart(&mut labels);
        assert_eq!(labels, [115.0, 131.0, 99.0]);
    }
}
