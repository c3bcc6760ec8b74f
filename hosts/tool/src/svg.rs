//! A picture as an SVG file that needs nothing else: a title, the boxes with their arrows, and a legend, on a white ground.

use crate::layout::{layout, Spot, ROW};
use crate::picture::{Picture, Vertex};
use crate::status::{self, Status};

// Lengths are in pixels. All letters have one width, so that a text's width is known well enough without the font.
const FONT: &str = "ui-monospace, 'DejaVu Sans Mono', Menlo, Consolas, monospace";
const LETTER: usize = 13;
const TITLE_LETTER: usize = 17;
/// No usual font has wider letters at this size.
const LETTER_WIDTH: f64 = 8.2;
const LINE: usize = 18;
/// From a line's top to the base of its letters.
const BASE: usize = 13;

const MARGIN: usize = 24;
const HEADING: usize = 64;
/// Left and right of a box's text.
const PADDING: usize = 12;
const BETWEEN_COLUMNS: usize = 64;
const BETWEEN_ROWS: usize = 18;
const ABOVE_LEGEND: usize = 22;
const LEGEND_LINE: usize = 22;
/// The width of the legend's boxes and arrow.
const SAMPLE: usize = 34;

const INK: &str = "#1f2328";
const ARROW: &str = "#57606a";

pub fn svg(picture: &Picture) -> String {
    let layout = layout(picture.vertices.len(), &picture.edges);
    let boxes = Boxes::around(&picture.vertices);
    let legend_top = MARGIN + HEADING + layout.rows * (boxes.height + BETWEEN_ROWS) - BETWEEN_ROWS + ABOVE_LEGEND;
    let legend = legend(legend_top);
    let graph_width = layout.columns * (boxes.width + BETWEEN_COLUMNS) - BETWEEN_COLUMNS;
    let width = graph_width.max(width_of(&picture.program)).max(legend.width) + 2 * MARGIN;
    let height = legend_top + legend.height + MARGIN;
    let (title, program) = (escaped(&picture.title), escaped(&picture.program));

    let mut lines = vec![
        format!(r#"<svg xmlns="http://www.w3.org/2000/svg" width="{width}" height="{height}" viewBox="0 0 {width} {height}" role="img""#)
            + &format!(r#" font-family="{FONT}" font-size="{LETTER}" fill="{INK}">"#),
        format!("<title>{title}: {program}</title>"),
        r#"<defs><marker id="head" viewBox="0 0 10 10" refX="10" refY="5" markerWidth="7" markerHeight="7" orient="auto">"#.to_string()
            + &format!(r#"<path d="M 0 0 L 10 5 L 0 10 z" fill="{ARROW}"/></marker></defs>"#),
        format!(r##"<rect width="{width}" height="{height}" rx="8" fill="#ffffff"/>"##),
        format!(r#"<text x="{MARGIN}" y="{}" font-size="{TITLE_LETTER}" font-weight="bold">{title}</text>"#, MARGIN + TITLE_LETTER),
        format!(r#"<text x="{MARGIN}" y="{}">{program}</text>"#, MARGIN + TITLE_LETTER + LEGEND_LINE),
    ];
    lines.push(format!(r#"<g fill="none" stroke="{ARROW}" stroke-width="1.5">"#));
    lines.extend(picture.edges.iter().map(|&(source, target)| boxes.arrow(layout.spots[source], layout.spots[target])));
    lines.push("</g>".to_string());
    lines.push(r#"<g text-anchor="middle">"#.to_string());
    lines.extend(picture.vertices.iter().zip(&layout.spots).flat_map(|(vertex, &spot)| boxes.drawn(vertex, spot)));
    lines.push("</g>".to_string());
    lines.push("<g>".to_string());
    lines.extend(legend.lines);
    lines.push("</g>".to_string());
    lines.push("</svg>\n".to_string());
    lines.join("\n")
}

/// The size that all boxes have.
struct Boxes {
    width: usize,
    height: usize,
}

impl Boxes {
    /// Large enough for every vertex.
    fn around(vertices: &[Vertex]) -> Boxes {
        let widest = vertices.iter().flat_map(|vertex| &vertex.lines).map(|line| width_of(line)).max();
        let most_lines = vertices.iter().map(|vertex| vertex.lines.len()).max();
        Boxes { width: widest.unwrap_or(0) + 2 * PADDING, height: (most_lines.unwrap_or(0) + 1) * LINE }
    }

    /// A box's left upper corner.
    fn corner(&self, spot: Spot) -> (usize, usize) {
        let x = MARGIN + spot.column * (self.width + BETWEEN_COLUMNS);
        let y = MARGIN + HEADING + spot.height * (self.height + BETWEEN_ROWS) / ROW;
        (x, y)
    }

    /// The box and its text, as high above its middle as below.
    fn drawn(&self, vertex: &Vertex, spot: Spot) -> Vec<String> {
        let (x, y) = self.corner(spot);
        let mut lines = vec![outlined(vertex.status, x, y, self.width, self.height)];
        let (middle, colour) = (x + self.width / 2, vertex.status.colours().text);
        let mut base = y + (self.height - LINE * vertex.lines.len()) / 2 + BASE;
        for (index, line) in vertex.lines.iter().enumerate() {
            let weight = if index == 0 { r#" font-weight="bold""# } else { "" };
            lines.push(format!(r#"<text x="{middle}" y="{base}" fill="{colour}"{weight}>{}</text>"#, escaped(line)));
            base += LINE;
        }
        lines
    }

    /// From the middle of the source's right side to the middle of the target's left side.
    fn arrow(&self, source: Spot, target: Spot) -> String {
        let ((x1, y1), (x2, y2)) = (self.corner(source), self.corner(target));
        let (x1, y1, y2) = (x1 + self.width, y1 + self.height / 2, y2 + self.height / 2);
        let (bend1, bend2) = (x1 + BETWEEN_COLUMNS / 2, x2 - BETWEEN_COLUMNS / 2);
        format!(r#"<path d="M {x1} {y1} C {bend1} {y1} {bend2} {y2} {x2} {y2}" marker-end="url(#head)"/>"#)
    }
}

fn outlined(status: Status, x: usize, y: usize, width: usize, height: usize) -> String {
    let colours = status.colours();
    let line = match status {
        Status::New => r#" stroke-dasharray="5 3""#,
        Status::Executing => r#" stroke-width="2.5""#,
        Status::Released | Status::Finished => "",
    };
    let (fill, outline) = (colours.fill, colours.outline);
    format!(r#"<rect x="{x}" y="{y}" width="{width}" height="{height}" rx="6" fill="{fill}" stroke="{outline}"{line}/>"#)
}

struct Legend {
    lines: Vec<String>,
    width: usize,
    height: usize,
}

/// What each status's box means, and the arrow.
fn legend(top: usize) -> Legend {
    let mut legend = Legend { lines: Vec::new(), width: 0, height: 0 };
    for status in Status::ALL {
        let sample = outlined(status, MARGIN, top + legend.height + 1, SAMPLE, LINE - 3);
        legend.add(top, sample, &format!("{}: {}", status.word(), status.meaning()));
    }
    let (right, middle) = (MARGIN + SAMPLE, top + legend.height + LINE / 2);
    let sample = format!(r#"<path d="M {MARGIN} {middle} H {right}" stroke="{ARROW}" stroke-width="1.5" marker-end="url(#head)"/>"#);
    legend.add(top, sample, status::ARROW);
    legend
}

impl Legend {
    fn add(&mut self, top: usize, sample: String, meaning: &str) {
        let (x, base) = (MARGIN + SAMPLE + PADDING, top + self.height + BASE);
        self.lines.push(sample);
        self.lines.push(format!(r#"<text x="{x}" y="{base}">{}</text>"#, escaped(meaning)));
        self.width = self.width.max(SAMPLE + PADDING + width_of(meaning));
        self.height += LEGEND_LINE;
    }
}

/// How wide a line of text is at the most. A letter that is not ASCII may be twice as wide.
fn width_of(text: &str) -> usize {
    let letters: usize = text.chars().map(|letter| if letter.is_ascii() { 1 } else { 2 }).sum();
    (letters as f64 * LETTER_WIDTH).ceil() as usize
}

fn escaped(text: &str) -> String {
    text.replace('&', "&amp;").replace('<', "&lt;").replace('>', "&gt;").replace('"', "&quot;")
}
