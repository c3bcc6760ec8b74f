//! A program as an outline: an item or end byte a line, its offset, its bytes and its words, indented by its level.

use crate::bodies::{Body, Open};
use crate::hex;
use crate::items::{items, Item};
use crate::names::{words, Names};

pub fn outline(program: &[u8], names: &Names) -> String {
    let mut open = Open::new();
    let mut lines = Vec::new();
    for (bytes, item) in items(program) {
        let before = open.level();
        let ended = open.pass(bytes.start, item);
        // An end byte stands below what it ends.
        let (level, words) = match ended {
            Some(body) => (before.saturating_sub(2), end_of(body).to_string()),
            None => (before - 1, words(item, names) + &future_of(item, &open)),
        };
        lines.push((bytes.start, hex::text(&program[bytes]), level, words));
    }
    let offsets = lines.last().map_or(0, |(offset, ..)| offset.to_string().len());
    let widest = lines.iter().map(|(_, bytes, ..)| bytes.len()).max().unwrap_or(0);
    let line = |(offset, bytes, level, words)| format!("{offset:offsets$}  {bytes:widest$}  {}{words}\n", "  ".repeat(level));
    lines.into_iter().map(line).collect()
}

fn end_of(body: Body) -> &'static str {
    match body {
        Body::Program => "end of the program",
        Body::Async(_) => "end of the async",
        Body::Finish(_) => "end of the finish",
        Body::ForkFirst(_) => "end of the fork's first body; beside it:",
        Body::ForkSecond(_) => "end of the fork",
        Body::Future(_) => "end of the future",
    }
}

/// Behind a force: which future it is of.
fn future_of(item: Item, open: &Open) -> String {
    let Item::Force(number) = item else { return String::new() };
    let future = open.nearest_future_first().nth(number as usize);
    future.map_or(String::new(), |place| format!(", the future at byte {place}"))
}

#[cfg(test)]
mod tests {
    use super::*;

    #[test]
    fn levels() {
        let names = Names::from([(2, "filter".to_string())]);
        // fork { async { job 2 } } { finish { } }, then job 128
        let lines = [
            " 0  04        fork",
            " 1  02          async",
            " 2  01 02         filter",
            " 4  00          end of the async",
            " 5  00        end of the fork's first body; beside it:",
            " 6  03          finish",
            " 7  00          end of the finish",
            " 8  00        end of the fork",
            " 9  01 80 01  job 128",
            "12  00        end of the program\n",
        ];
        assert_eq!(outline(&[4, 2, 1, 2, 0, 0, 3, 0, 0, 1, 0x80, 1, 0], &names), lines.join("\n"));
        assert_eq!(outline(&[0], &names), "0  00  end of the program\n");
    }

    #[test]
    fn forces_and_their_futures() {
        // future { job 1 } future { force 0 job 2 } async { force 1 } force 0
        let lines = [
            " 0  05     future",
            " 1  01 01    job 1",
            " 3  00     end of the future",
            " 4  05     future",
            " 5  06 00    force 0, the future at byte 0",
            " 7  01 02    job 2",
            " 9  00     end of the future",
            "10  02     async",
            "11  06 01    force 1, the future at byte 0",
            "13  00     end of the async",
            "14  06 00  force 0, the future at byte 4",
            "16  00     end of the program\n",
        ];
        assert_eq!(outline(&[5, 1, 1, 0, 5, 6, 0, 1, 2, 0, 2, 6, 1, 0, 6, 0, 0], &Names::new()), lines.join("\n"));
    }
}
