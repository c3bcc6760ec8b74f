//! A reader of XML that takes no more than pictures need, and fails a test where a file is not well formed.

use std::collections::BTreeMap;

#[derive(Debug)]
pub struct Element {
    pub name: String,
    pub attributes: BTreeMap<String, String>,
    pub text: String,
}

impl Element {
    pub fn number(&self, attribute: &str) -> f64 {
        self.attributes[attribute].parse().unwrap()
    }
}

/// All elements, each where it begins.
pub fn elements(file: &str) -> Vec<Element> {
    let mut elements: Vec<Element> = Vec::new();
    // Indices of those that are open.
    let mut open: Vec<usize> = Vec::new();
    let mut rest = file;
    while let Some((text, behind)) = rest.split_once('<') {
        match open.last() {
            Some(&innermost) => elements[innermost].text += &unescaped(text),
            None => assert_eq!(text.trim(), "", "text outside of all elements"),
        }
        let (tag, behind) = behind.split_once('>').expect("a tag without an end");
        rest = behind;
        if let Some(name) = tag.strip_prefix('/') {
            let innermost = open.pop().expect("an end without a beginning");
            assert_eq!(elements[innermost].name, name);
            continue;
        }
        assert!(elements.is_empty() || !open.is_empty(), "a second outermost element: {tag}");
        let (tag, empty) = tag.strip_suffix('/').map_or((tag, false), |tag| (tag, true));
        let (name, attributes) = tag.split_once(' ').unwrap_or((tag, ""));
        assert!(!name.is_empty() && name.chars().all(|c| c.is_ascii_alphanumeric()), "{tag}");
        elements.push(Element { name: name.to_string(), attributes: read_attributes(attributes), text: String::new() });
        if !empty {
            open.push(elements.len() - 1);
        }
    }
    assert!(open.is_empty(), "an element without an end");
    assert_eq!(rest.trim(), "", "text outside of all elements");
    elements
}

fn read_attributes(mut text: &str) -> BTreeMap<String, String> {
    let mut attributes = BTreeMap::new();
    while !text.is_empty() {
        let (name, rest) = text.split_once("=\"").expect("an attribute without a value");
        let (value, rest) = rest.split_once('"').expect("a value without an end");
        assert!(!value.contains('<'));
        assert!(attributes.insert(name.trim().to_string(), unescaped(value)).is_none(), "an attribute twice: {name}");
        assert!(rest.is_empty() || rest.starts_with(' '), "no space between attributes");
        text = rest;
    }
    attributes
}

fn unescaped(text: &str) -> String {
    let mut parts = text.split('&');
    let mut plain = parts.next().unwrap().to_string();
    for part in parts {
        let (entity, rest) = part.split_once(';').expect("an & that begins nothing");
        plain += match entity {
            "amp" => "&",
            "lt" => "<",
            "gt" => ">",
            "quot" => "\"",
            _ => panic!("an entity of no meaning: {entity}"),
        };
        plain += rest;
    }
    plain
}
