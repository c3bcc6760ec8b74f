//! Pictures: what stands in them, and that other programs can read them.

use std::collections::BTreeSet;
use std::fs;

use crate::xml::{elements, Element};
use crate::{scratch, written};

/// fork { finish { async { job 1 } async { job 2 } } job 3 } { fork { job 4 } { job 5 } async { job 6 } } job 7
const NESTED: &str = "04 03 02 01 01 00 02 01 02 00 00 01 03 00 04 01 04 00 01 05 00 02 01 06 00 00 01 07 00";

/// future { job 1 } future { force 0 job 2 } async { force 1 job 3 } force 0 job 4 force 1 job 5
const FORCED: &str = "05 01 01 00 05 06 00 01 02 00 02 06 01 01 03 00 06 00 01 04 06 01 01 05 00";

#[test]
fn a_small_graph_for_graphviz() {
    let text = written(&["dot", "--steps", "4", "03 02 01 05 00 00 01 06 00"], b"");
    assert_eq!(
        text,
        r##"digraph keshtiwol {
  rankdir=LR;
  labelloc=t;
  label="After 4 of 21 steps\nbytes 03 02 01 05 00 00 01 06 00";
  node [shape=box, style=filled, fontname=monospace];
  v0 [label="vertex 0: executing\nin finish (byte 0), 3 of 6 done", fillcolor="#b4f0c0", color="#116329", fontcolor="#1f2328"];
  v1 [label="vertex 1: released\nfirst: end (byte 8)", fillcolor="#cfe4ff", color="#0a4fa3", fontcolor="#1f2328"];
  v2 [label="vertex 2: new\nfirst: job 6 (byte 6)", fillcolor="#ffffff", color="#57606a", fontcolor="#1f2328"];
  v3 [label="vertex 3: new\nfirst: async (byte 1)", fillcolor="#ffffff", color="#57606a", fontcolor="#1f2328"];
  v0 -> v1;
  v3 -> v2;
  subgraph cluster_legend {
    label="arrow: its head waits until its tail has finished";
    new [label="new\nmade, and not released yet", fillcolor="#ffffff", color="#57606a", fontcolor="#1f2328"];
    released [label="released\nmay start once no arrow leads to it", fillcolor="#cfe4ff", color="#0a4fa3", fontcolor="#1f2328"];
    executing [label="executing\nhas started and not stopped", fillcolor="#b4f0c0", color="#116329", fontcolor="#1f2328"];
    finished [label="finished\nhas stopped; its arrows are gone", fillcolor="#eceef0", color="#afb8c1", fontcolor="#57606a"];
  }
}
"##
    );
}

/// The graph as the lines of a listing tell it: each vertex's status, and the edges held.
fn told(lines: &[&str]) -> (Vec<&'static str>, Vec<(usize, usize)>) {
    let mut statuses = vec!["released", "released"];
    let mut edges = vec![(0, 1)];
    for line in lines {
        let words: Vec<&str> = line.split(' ').collect();
        let number = |index: usize| words[index].parse::<usize>().unwrap();
        let vertex = number(0);
        match words[1] {
            "start" => statuses[vertex] = "executing",
            "new" => statuses.push("new"),
            "edge" if statuses[number(2)] == "finished" => {}
            "edge" => edges.push((number(2), number(3))),
            "release" => statuses[number(2)] = "released",
            "transfer" => edges.iter_mut().filter(|edge| edge.0 == vertex).for_each(|edge| edge.0 = number(2)),
            "yield" => statuses[vertex] = "released",
            "stop" => {
                statuses[vertex] = "finished";
                edges.retain(|edge| edge.0 != vertex);
            }
            _ => {}
        }
    }
    (statuses, edges)
}

/// After every number of steps both forms are well formed and show the graph that the listing tells.
#[test]
fn every_moment() {
    for (program, edition) in [(NESTED, "1"), (NESTED, "2"), (FORCED, "1")] {
        every_moment_of(program, edition);
    }
}

fn every_moment_of(program: &str, edition: &str) {
    let listing = written(&["list", program, "--edition", edition], b"");
    let lines: Vec<&str> = listing.lines().skip(1).collect();
    for steps in 0..=lines.len() {
        let (statuses, edges) = told(&lines[..steps]);
        let steps = steps.to_string();
        let title = format!("After {steps} of {} steps", lines.len());

        let dot = written(&["dot", "--steps", &steps, "--edition", edition, program], b"");
        assert_eq!(graphviz(&dot), edges);
        let svg = written(&["svg", "--steps", &steps, "--edition", edition, program], b"");
        let drawn = drawn(&svg);
        assert_eq!(drawn.edges(), edges);
        assert_eq!(drawn.boxes.len(), statuses.len());
        for (number, status) in statuses.iter().enumerate() {
            let heading = format!("vertex {number}: {status}");
            assert!(dot.contains(&format!("  v{number} [label=\"{heading}")), "{dot}");
            assert_eq!(drawn.headings()[number], heading);
        }
        assert!(dot.contains(&title) && svg.contains(&title));
        drawn.fits();
    }
}

/// The arrows, boxes and texts of the vertices. Arrows are in the first group of an SVG file, the others in the second.
struct Drawn {
    boxes: Vec<Element>,
    texts: Vec<Element>,
    arrows: Vec<Element>,
}

fn drawn(svg: &str) -> Drawn {
    let mut drawn = Drawn { boxes: Vec::new(), texts: Vec::new(), arrows: Vec::new() };
    let mut group = 0;
    for element in elements(svg) {
        group += u32::from(element.name == "g");
        match (group, element.name.as_str()) {
            (1, "path") => drawn.arrows.push(element),
            (2, "rect") => drawn.boxes.push(element),
            (2, "text") => drawn.texts.push(element),
            _ => {}
        }
    }
    drawn
}

/// The sides of a box.
#[derive(Debug)]
struct Sides {
    left: f64,
    top: f64,
    right: f64,
    bottom: f64,
}

impl Drawn {
    fn sides(&self) -> Vec<Sides> {
        let sides = |shape: &Element| {
            let (left, top) = (shape.number("x"), shape.number("y"));
            Sides { left, top, right: left + shape.number("width"), bottom: top + shape.number("height") }
        };
        self.boxes.iter().map(sides).collect()
    }

    /// The first line of each vertex.
    fn headings(&self) -> Vec<&str> {
        self.texts.iter().map(|text| text.text.as_str()).filter(|text| text.starts_with("vertex")).collect()
    }

    /// By where the arrows begin and end: in the middle of a box's right side and of another's left side.
    fn edges(&self) -> Vec<(usize, usize)> {
        let sides = self.sides();
        let edge = |arrow: &Element| {
            let ends: Vec<f64> = arrow.attributes["d"].split(' ').filter_map(|word| word.parse().ok()).collect();
            let at = |y: f64, side: &Sides| (side.top + side.bottom) / 2.0 == y;
            let source = sides.iter().position(|side| side.right == ends[0] && at(ends[1], side)).unwrap();
            let target = sides.iter().position(|side| side.left == ends[6] && at(ends[7], side)).unwrap();
            assert!(ends[0] < ends[6], "{arrow:?} does not lead to the right");
            (source, target)
        };
        self.arrows.iter().map(edge).collect()
    }

    /// Boxes don't meet, and every text stands in one.
    fn fits(&self) {
        let sides = self.sides();
        for (index, a) in sides.iter().enumerate() {
            for b in &sides[index + 1..] {
                assert!(a.right < b.left || b.right < a.left || a.bottom < b.top || b.bottom < a.top, "{a:?} meets {b:?}");
            }
        }
        for text in &self.texts {
            let (x, y) = (text.number("x"), text.number("y"));
            let around = sides.iter().find(|side| side.left < x && x < side.right && side.top < y && y < side.bottom).unwrap();
            // Letters of this size are up to 8 pixels wide, reach 11 above their base and 4 below it.
            let half = text.text.chars().count() as f64 * 8.0 / 2.0;
            assert!(around.left + 4.0 <= x - half && x + half <= around.right - 4.0, "{text:?}");
            assert!(around.top + 2.0 <= y - 11.0 && y + 4.0 <= around.bottom - 2.0, "{text:?}");
        }
    }
}

/// The edges of a text for Graphviz, if it is one: statements end, braces and quotation marks close, and an edge's ends are there.
fn graphviz(text: &str) -> Vec<(usize, usize)> {
    let (mut depth, mut vertices, mut edges) = (0, BTreeSet::new(), Vec::new());
    for line in text.lines().map(str::trim) {
        let mut quoted = false;
        let mut characters = line.chars();
        while let Some(character) = characters.next() {
            match character {
                '"' => quoted = !quoted,
                '\\' => assert!(quoted && characters.next().is_some(), "{line}"),
                '{' if !quoted => depth += 1,
                '}' if !quoted => depth -= 1,
                _ => {}
            }
        }
        assert!(!quoted && line.ends_with([';', '{', '}']), "{line}");
        if let Some((source, target)) = line.trim_end_matches(';').split_once(" -> ") {
            assert!(vertices.contains(source) && vertices.contains(target), "{line}");
            edges.push((source[1..].parse().unwrap(), target[1..].parse().unwrap()));
        } else if line.starts_with('v') {
            assert!(vertices.insert(line.split_once(' ').unwrap().0), "{line}");
        }
    }
    assert_eq!(depth, 0);
    edges
}

#[test]
fn names_are_escaped() {
    let name = r#"<a> & "b" \n é"#;
    let arguments = ["--name", &format!("5={name}"), "01 05 00"];
    let line = format!("first: {name} (byte 0)");
    let svg = drawn(&written(&[&["svg"], &arguments[..]].concat(), b""));
    assert!(svg.texts.iter().any(|text| text.text == line), "{:?}", svg.texts);
    svg.fits();
    let dot = written(&[&["dot"], &arguments[..]].concat(), b"");
    assert!(dot.contains(r#"\nfirst: <a> &amp; \"b\" \\n é (byte 0)", fillcolor"#), "{dot}");
    graphviz(&dot);
}

/// Colour is not all that tells a status.
#[test]
fn statuses_are_told_by_colour_and_word() {
    let svg = drawn(&written(&["svg", "--steps", "11", "03 02 01 05 00 00 01 06 00"], b""));
    let fills = svg.boxes.iter().map(|shape| shape.attributes["fill"].as_str());
    let told: Vec<_> = fills.zip(svg.headings()).collect();
    assert_eq!(
        told,
        [
            ("#eceef0", "vertex 0: finished"),
            ("#cfe4ff", "vertex 1: released"),
            ("#cfe4ff", "vertex 2: released"),
            ("#b4f0c0", "vertex 3: executing"),
            ("#ffffff", "vertex 4: new")
        ]
    );
}

#[test]
fn more_steps_than_there_are_lead_to_the_end() {
    let end = written(&["svg", "--steps", "66", NESTED], b"");
    assert_eq!(written(&["svg", "--steps", "67", NESTED], b""), end);
    assert_eq!(written(&["svg", "--steps", "18446744073709551615", NESTED], b""), end);
    assert_eq!(end.matches(": finished</text>").count(), 13);
}

#[test]
fn the_moment_without_options() {
    // The sample holds three edges at the most, from the step on that gives vertex 4 its own.
    let sample = "03 02 01 05 00 00 01 06 00";
    assert_eq!(written(&["svg", sample], b""), written(&["svg", "--steps", "11", sample], b""));
}

#[test]
fn written_to_a_file() {
    let (svg, dot) = (scratch("nested.svg"), scratch("nested.dot"));
    assert_eq!(written(&["svg", NESTED, "-o", &svg], b""), "");
    assert_eq!(written(&["dot", NESTED, "-o", &dot], b""), "");
    assert_eq!(fs::read_to_string(svg).unwrap(), written(&["svg", NESTED], b""));
    assert_eq!(fs::read_to_string(dot).unwrap(), written(&["dot", NESTED], b""));
}

/// A picture's size grows with the vertices and not with their square.
#[test]
fn large_pictures() {
    let mut longest = 0;
    for asyncs in [126, 1022] {
        let program = "0200".repeat(asyncs) + "00";
        let svg = written(&["svg", &program], b"");
        let drawn = drawn(&svg);
        assert_eq!((drawn.boxes.len(), drawn.arrows.len()), (asyncs + 2, asyncs + 1));
        drawn.fits();
        assert!(longest == 0 || svg.len() < 9 * longest, "{} after {longest}", svg.len());
        longest = svg.len();
    }
}
