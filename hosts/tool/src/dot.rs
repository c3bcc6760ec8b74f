//! A picture as text for Graphviz.

use crate::picture::Picture;
use crate::status::{Status, ARROW};

pub fn dot(picture: &Picture) -> String {
    let mut text = String::from("digraph keshtiwol {\n  rankdir=LR;\n  labelloc=t;\n");
    text += &format!("  label={};\n", quoted(&[&picture.title, &picture.program]));
    text += "  node [shape=box, style=filled, fontname=monospace];\n";
    for (number, vertex) in picture.vertices.iter().enumerate() {
        text += &format!("  v{number} {};\n", attributes(vertex.status, &vertex.lines));
    }
    for (source, target) in &picture.edges {
        text += &format!("  v{source} -> v{target};\n");
    }
    text += &format!("  subgraph cluster_legend {{\n    label={};\n", quoted(&[ARROW]));
    for status in Status::ALL {
        text += &format!("    {} {};\n", status.word(), attributes(status, &[status.word(), status.meaning()]));
    }
    text + "  }\n}\n"
}

fn attributes(status: Status, lines: &[impl AsRef<str>]) -> String {
    let colours = status.colours();
    format!("[label={}, fillcolor=\"{}\", color=\"{}\", fontcolor=\"{}\"]", quoted(lines), colours.fill, colours.outline, colours.text)
}

/// Lines as one string, each character as itself.
fn quoted(lines: &[impl AsRef<str>]) -> String {
    // Graphviz reads entities in labels.
    let escape = |line: &str| line.replace('\\', "\\\\").replace('"', "\\\"").replace('&', "&amp;");
    let escaped: Vec<_> = lines.iter().map(|line| escape(line.as_ref())).collect();
    format!("\"{}\"", escaped.join("\\n"))
}

#[cfg(test)]
mod tests {
    use super::*;

    #[test]
    fn characters_that_mean_something() {
        assert_eq!(quoted(&["a \"b\"", "\\n", "R&amp;D"]), r#""a \"b\"\n\\n\nR&amp;amp;D""#);
    }
}
