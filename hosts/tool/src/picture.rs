//! What a picture says, whatever draws it: a title, the program, a few lines for each vertex, and the edges held.

use keshtiwol::{EDGE_WORDS, PHASE, PLACE, SOURCE, STATUS, TARGET, VERTEX_WORDS};

use crate::answers::in_edition;
use crate::hex;
use crate::items::Item;
use crate::moment::Moment;
use crate::names::{words, Names};
use crate::status::Status;

/// Programs up to this length stand in the picture.
const SHOWN_BYTES: usize = 32;

pub struct Picture {
    pub title: String,
    pub program: String,
    /// By their numbers.
    pub vertices: Vec<Vertex>,
    /// Source and target.
    pub edges: Vec<(usize, usize)>,
}

pub struct Vertex {
    pub status: Status,
    pub lines: Vec<String>,
}

impl Picture {
    pub fn of(moment: &Moment, names: &Names) -> Picture {
        let machine = &moment.machine;
        let program = machine.program();
        let rows = machine.vertices().chunks(VERTEX_WORDS).zip(0..);
        let edges = machine.edges().chunks(EDGE_WORDS);
        Picture {
            title: format!("After {} of {} steps{}", machine.tally().steps, moment.all_steps, in_edition(machine.edition())),
            program: match program.len() {
                0..=SHOWN_BYTES => format!("bytes {}", hex::text(program)),
                length => format!("a program of {length} bytes"),
            },
            vertices: rows.map(|(row, number)| vertex(number, row, moment, names)).collect(),
            edges: edges.map(|row| (row[SOURCE] as usize, row[TARGET] as usize)).collect(),
        }
    }
}

fn vertex(number: u32, row: &[u32], moment: &Moment, names: &Names) -> Vertex {
    let machine = &moment.machine;
    let status = Status::of(row[STATUS]);
    let mut lines = vec![format!("vertex {number}: {}", status.word())];
    if let Some(&job) = moment.jobs.get(&number) {
        lines.push(format!("runs {}", words(Item::Job(job), names)));
    }
    let (place, phase) = (row[PLACE], row[PHASE]);
    let item = Item::at(machine.program(), place as usize);
    let name = words(item, names);
    match status {
        Status::Released if moment.yielded.contains(&number) => lines.push(format!("has yielded; next: {name} (byte {place})")),
        Status::New | Status::Released => lines.push(format!("first: {name} (byte {place})")),
        Status::Executing if phase == 0 => lines.push(format!("next: {name} (byte {place})")),
        Status::Executing => {
            lines.push(format!("in {name} (byte {place}), {phase} of {} done", item.commands(machine.edition())));
        }
        Status::Finished => {}
    }
    Vertex { status, lines }
}

#[cfg(test)]
mod tests {
    use super::*;
    use crate::moment::Schedule;
    use keshtiwol::{Edition, Machine};

    fn picture(program: &[u8], steps: u64, then: &[u32], names: &Names) -> Picture {
        let schedule = Schedule::new(Some(steps), Some(then.to_vec()));
        Picture::of(&Moment::reach(Machine::load(program).unwrap(), &schedule).unwrap(), names)
    }

    fn lines(picture: &Picture) -> Vec<String> {
        picture.vertices.iter().map(|vertex| vertex.lines.join("; ")).collect()
    }

    // finish { async { job 5 } } job 6
    const LISTED: [u8; 9] = [3, 2, 1, 5, 0, 0, 1, 6, 0];

    #[test]
    fn what_vertices_say() {
        let names = Names::from([(5, "filter".to_string())]);
        let loaded = picture(&LISTED, 0, &[], &names);
        assert_eq!(loaded.title, "After 0 of 21 steps");
        assert_eq!(loaded.program, "bytes 03 02 01 05 00 00 01 06 00");
        assert_eq!(lines(&loaded), ["vertex 0: released; first: finish (byte 0)", "vertex 1: released; first: end (byte 8)"]);
        assert_eq!(loaded.edges, [(0, 1)]);

        let begun = picture(&LISTED, 1, &[], &names);
        assert_eq!(lines(&begun)[0], "vertex 0: executing; next: finish (byte 0)");

        let midway = picture(&LISTED, 4, &[], &names);
        assert_eq!(
            lines(&midway),
            [
                "vertex 0: executing; in finish (byte 0), 3 of 6 done",
                "vertex 1: released; first: end (byte 8)",
                "vertex 2: new; first: job 6 (byte 6)",
                "vertex 3: new; first: async (byte 1)"
            ]
        );
        assert_eq!(midway.edges, [(0, 1), (3, 2)]);

        let running = picture(&LISTED, 15, &[], &names);
        assert_eq!(
            lines(&running),
            [
                "vertex 0: finished",
                "vertex 1: released; first: end (byte 8)",
                "vertex 2: released; first: job 6 (byte 6)",
                "vertex 3: finished",
                "vertex 4: executing; runs filter; next: end (byte 4)"
            ]
        );
    }

    // fork { job 1 } { job 2 }, then job 3
    const FORK: [u8; 10] = [4, 1, 1, 0, 1, 2, 0, 1, 3, 0];

    #[test]
    fn forks_by_the_edition() {
        let after = |edition, steps| {
            let machine = Machine::load_in(&FORK, edition).unwrap();
            Picture::of(&Moment::reach(machine, &Schedule::new(Some(steps), None)).unwrap(), &Names::new())
        };
        assert_eq!(lines(&after(Edition::First, 6))[0], "vertex 0: executing; in fork (byte 0), 5 of 9 done");
        assert_eq!(lines(&after(Edition::Second, 6))[0], "vertex 0: executing; in fork (byte 0), 5 of 7 done");
        let yielded = after(Edition::Second, 8);
        assert_eq!(yielded.title, "After 8 of 19 steps, in the second edition");
        assert_eq!(
            lines(&yielded),
            [
                "vertex 0: released; has yielded; next: job 3 (byte 7)",
                "vertex 1: released; first: end (byte 9)",
                "vertex 2: released; first: job 1 (byte 1)",
                "vertex 3: released; first: job 2 (byte 4)"
            ]
        );
        assert_eq!(yielded.edges, [(0, 1), (2, 0), (3, 0)]);
        assert_eq!(lines(&after(Edition::Second, 15))[0], "vertex 0: executing; next: job 3 (byte 7)");
    }

    #[test]
    fn long_programs_are_told_by_their_length() {
        let long = [[1, 5].repeat(16), vec![0]].concat();
        assert_eq!(picture(&long, 0, &[], &Names::new()).program, "a program of 33 bytes");
        assert!(picture(&long[2..], 0, &[], &Names::new()).program.starts_with("bytes 01 05"));
    }
}
