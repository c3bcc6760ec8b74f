//! What items are called, for people.

use std::collections::BTreeMap;

use crate::items::Item;

/// What jobs are called; others are told by their numbers.
pub type Names = BTreeMap<u32, String>;

pub fn words(item: Item, names: &Names) -> String {
    match item {
        Item::End => "end".to_string(),
        Item::Job(number) => names.get(&number).cloned().unwrap_or(format!("job {number}")),
        Item::Async => "async".to_string(),
        Item::Finish => "finish".to_string(),
        Item::Fork => "fork".to_string(),
        Item::Future => "future".to_string(),
        Item::Force(number) => format!("force {number}"),
    }
}
