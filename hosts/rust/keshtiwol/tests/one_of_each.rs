//! What stands in several places is the same in all of them: the refusals' names, numbers and words, and the version.

use std::collections::BTreeMap;

type List = BTreeMap<String, u32>;

/// Lines of the form `<before>NAME<between>NUMBER..`, with the names in capitals.
fn list(text: &str, before: &str, between: &str) -> List {
    let entry = |line: &str| {
        let (name, rest) = line.trim_start().strip_prefix(before)?.split_once(between)?;
        let digits: String = rest.chars().take_while(char::is_ascii_digit).collect();
        Some((name.replace('-', "_").to_uppercase(), digits.parse().ok()?))
    };
    text.lines().filter_map(entry).collect()
}

/// `SuchAName` in capitals: `SUCH_A_NAME`.
fn capitals(name: &str) -> String {
    let mut capitals = String::new();
    for letter in name.chars() {
        if letter.is_uppercase() && !capitals.is_empty() {
            capitals.push('_');
        }
        capitals.extend(letter.to_uppercase());
    }
    capitals
}

/// What stands in the code's braces behind this line.
fn braces<'a>(code: &'a str, line: &str) -> &'a str {
    let (_, inside) = code.split_once(line).unwrap();
    inside.split_once("\n}").unwrap().0
}

/// The reasons, with their numbers: lines of the form `Name = NUMBER,`.
fn reasons(code: &str) -> List {
    let reason = |line: &str| {
        let (name, number) = line.trim().strip_suffix(',')?.split_once(" = ")?;
        Some((capitals(name), number.parse().ok()?))
    };
    braces(code, "pub enum Reason {").lines().filter_map(reason).collect()
}

#[test]
fn one_list_of_refusals() {
    let code = reasons(include_str!("../../../../crates/refusal/src/lib.rt"));
    let definitions = list(include_str!("../../../../crates/refusal/specs/Refusals.antt"), "", " = ");
    let wrapper = list(include_str!("../src/refusal.rs"), "pub const ", ": u32 = ");
    let header = include_str!("../../../../include/keshtiwol.h");
    let (_, refusals) = header.split_once("The numbers of refusals").unwrap();
    let (refusals, _) = refusals.split_once("};").unwrap();
    let header = list(refusals, "KESHTIWOL_", " = ");
    assert_eq!(code.len(), 31);
    assert_eq!(code, definitions);
    assert_eq!(code, header);
    assert_eq!(code, wrapper);
}

/// The code's words, the header's and this crate's, and no words for a number that no refusal has.
#[test]
fn one_text_for_each_refusal() {
    let header = include_str!("../../../../include/keshtiwol.h");
    let numbers = list(header, "KESHTIWOL_", " = ");
    let mut texts = BTreeMap::new();
    for line in header.lines() {
        let Some(case) = line.trim().strip_prefix("case KESHTIWOL_") else { continue };
        let (name, text) = case.split_once(": return \"").unwrap();
        texts.insert(numbers[name], text.strip_suffix("\";").unwrap());
    }
    assert_eq!(texts.len(), 31);
    for number in (0..200).chain([u32::MAX]) {
        assert_eq!(keshtiwol::refusal::text(number), *texts.get(&number).unwrap_or(&"unknown"), "{number}");
    }
    let code = include_str!("../../../../crates/refusal/src/lib.rt");
    let numbers = reasons(code);
    let mut said = BTreeMap::new();
    for case in braces(code, "impl fmt::Display for Reason {").split("Reason::").skip(1) {
        let (name, text) = case.split_once(" =>").unwrap();
        said.insert(numbers[&capitals(name)], text.split('"').nth(1).unwrap());
    }
    assert_eq!(said, texts);
}

/// Of the archive, of this crate, of the header, and the newest in the list of changes.
#[test]
fn one_version() {
    let archive = keshtiwol::version();
    let [major, minor, patch] = [archive / 10_000, archive / 100 % 100, archive % 100];
    assert_eq!(format!("{major}.{minor}.{patch}"), env!("CARGO_PKG_VERSION"));
    let header = include_str!("../../../../include/keshtiwol.h");
    for (name, number) in [("MAJOR", major), ("MINOR", minor), ("PATCH", patch)] {
        assert!(header.contains(&format!("#define KESHTIWOL_VERSION_{name} {number}\n")), "{name}");
    }
    let changes = include_str!("../../../../CHANGELOG.md");
    let newest = changes.lines().find_map(|line| line.strip_prefix("## ")).unwrap();
    assert_eq!(newest.split_whitespace().next(), Some(env!("CARGO_PKG_VERSION")));
}
