//! Programs of every shape, valid ones and damaged ones.

use keshtiwol::Edition;

use crate::draw::Draw;

pub const JOB: u8 = 1;
pub const ASYNC: u8 = 2;
pub const FINISH: u8 = 3;
pub const FORK: u8 = 4;
pub const FUTURE: u8 = 5;
pub const FORCE: u8 = 6;

/// The least and the greatest number of one to five bytes.
const NUMBERS: [(u32, u32); 5] = [(0, 127), (128, 16_383), (16_384, 2_097_151), (2_097_152, 268_435_455), (268_435_456, 4_294_967_295)];

/// How often the six kinds of items come, in the order of their bytes.
type Weights = [u32; 6];

/// What a program may grow to.
#[derive(Clone, Copy, Debug)]
pub struct Shape {
    pub bytes: usize,
    /// As this edition counts them.
    pub vertices: u32,
    pub edition: Edition,
    pub levels: u32,
    /// How often jobs, asyncs, finishes, forks, futures and forces come.
    pub weights: Weights,
    /// How often job numbers have one to five bytes.
    pub numbers: [u32; 5],
    /// An inner body ends after an item once in so many times.
    pub ends: u32,
    /// Whether the main body grows until nothing more fits, or ends as the others do.
    pub full: bool,
}

/// A program within a shape. Within 4,096 bytes, 1,024 vertices and 32 levels it is valid in the shape's edition.
pub fn grow(draw: &mut Draw, shape: &Shape) -> Vec<u8> {
    let mut growth = Growth { shape, bytes: Vec::new(), owed: 1, vertices: 2 };
    growth.body(draw, 1, 0);
    growth.bytes
}

struct Growth<'a> {
    shape: &'a Shape,
    bytes: Vec<u8>,
    /// End bytes still to come.
    owed: usize,
    vertices: u32,
}

impl Growth<'_> {
    /// Adds a body where so many futures are open.
    fn body(&mut self, draw: &mut Draw, level: u32, mut open: u32) {
        let goes_on = level == 1 && self.shape.full;
        while goes_on || !draw.one_in(self.shape.ends) {
            match self.item(draw, level, open) {
                None => break,
                Some(FUTURE) => open += 1,
                Some(_) => {}
            }
        }
        self.bytes.push(0);
        self.owed -= 1;
    }

    /// Adds an item that fits, if there is one, and answers its first byte.
    fn item(&mut self, draw: &mut Draw, level: u32, open: u32) -> Option<u8> {
        let room = self.shape.bytes.saturating_sub(self.bytes.len() + self.owed);
        let vertices = self.shape.vertices.saturating_sub(self.vertices);
        let inner = level < self.shape.levels;
        let fits = [
            room >= 2,
            inner && room >= 2 && vertices >= 1,
            inner && room >= 2 && vertices >= 2,
            inner && room >= 3 && vertices >= by_a_fork(self.shape.edition),
            inner && room >= 2 && vertices >= 2,
            open > 0 && room >= 2 && vertices >= 1,
        ];
        let mut weights = self.shape.weights;
        for (weight, fits) in weights.iter_mut().zip(fits) {
            *weight *= u32::from(fits);
        }
        if weights == [0; 6] {
            return None;
        }
        let first = 1 + draw.weighted(&weights) as u8;
        match first {
            JOB => {
                let longest = (room - 1).min(NUMBERS.len());
                let mut lengths = self.shape.numbers;
                lengths[longest..].fill(0);
                let length = if lengths == [0; NUMBERS.len()] { 0 } else { draw.weighted(&lengths) };
                let (least, greatest) = NUMBERS[length];
                self.bytes.push(JOB);
                self.bytes.extend(number_bytes(draw.to_the_edges(least, greatest)));
            }
            ASYNC => self.bodies(draw, level, open, first, 1, 1),
            FINISH | FUTURE => self.bodies(draw, level, open, first, 1, 2),
            FORK => self.bodies(draw, level, open, first, 2, by_a_fork(self.shape.edition)),
            _ => {
                // The nearest future, the farthest, or any; where there is room for one byte, one that this can name.
                let farthest = if room == 2 { (open - 1).min(127) } else { open - 1 };
                self.bytes.push(FORCE);
                self.bytes.extend(number_bytes(draw.to_the_edges(0, farthest)));
                self.vertices += 1;
            }
        }
        Some(first)
    }

    /// Adds an item with bodies, in which as many futures are open as at its place.
    fn bodies(&mut self, draw: &mut Draw, level: u32, open: u32, opener: u8, bodies: usize, vertices: u32) {
        self.bytes.push(opener);
        self.owed += bodies;
        self.vertices += vertices;
        for _ in 0..bodies {
            self.body(draw, level + 1, open);
        }
    }
}

/// The vertices that a fork makes.
fn by_a_fork(edition: Edition) -> u32 {
    match edition {
        Edition::First => 3,
        Edition::Second => 2,
    }
}

/// A number in its shortest form.
pub fn number_bytes(mut number: u32) -> Vec<u8> {
    let mut bytes = Vec::new();
    while number > 127 {
        bytes.push(number as u8 | 0x80);
        number >>= 7;
    }
    bytes.push(number as u8);
    bytes
}

/// The number that stands at a place of a valid program.
pub fn number_at(program: &[u8], at: usize) -> u32 {
    let mut number = 0;
    for (group, byte) in program[at..].iter().enumerate() {
        number |= u32::from(byte & 0x7F) << (7 * group);
        if *byte < 128 {
            break;
        }
    }
    number
}

/// How large programs are drawn. Large ones cost a thousand times a small one's time.
#[derive(Clone, Copy, Debug, PartialEq)]
pub enum Size {
    Small,
    Middle,
    Large,
}

/// A program that is valid in an edition.
pub fn valid(draw: &mut Draw, size: Size, edition: Edition) -> Vec<u8> {
    let shape = shape_of(draw, size, edition);
    grow(draw, &shape)
}

/// The same, mostly with futures and forces.
pub fn with_futures(draw: &mut Draw, size: Size, edition: Edition) -> Vec<u8> {
    with(draw, size, edition, &WITH_FUTURES)
}

/// The same, mostly with forks: nested, one after the other, and with all else in their branches.
pub fn with_forks(draw: &mut Draw, size: Size, edition: Edition) -> Vec<u8> {
    with(draw, size, edition, &WITH_FORKS)
}

/// So many asyncs, beside each other, with a job in each.
pub fn asyncs_with_a_job(times: u32) -> Vec<u8> {
    [[ASYNC, JOB, 5, 0].repeat(times as usize), vec![0]].concat()
}

/// So many futures with nothing in them, then forces of any of these, asyncs, finishes, forks and jobs, one after the other.
pub fn one_of_each(draw: &mut Draw, futures: u32) -> Vec<u8> {
    let mut program = [FUTURE, 0].repeat(futures as usize);
    for _ in 0..draw.between(1, 3) {
        for number in [0, draw.below(futures)] {
            program.push(FORCE);
            program.extend(number_bytes(number));
        }
        program.extend([ASYNC, JOB, 5, 0, FINISH, JOB, 6, 0, FORK, 0, JOB, 7, 0, JOB, 8, JOB, 9, JOB, 10]);
    }
    program.push(0);
    program
}

/// So many forks with nothing in them, one after the other.
pub fn empty_forks(forks: usize) -> Vec<u8> {
    [[FORK, 0, 0].repeat(forks), vec![0]].concat()
}

fn with(draw: &mut Draw, size: Size, edition: Edition, weights: &[Weights]) -> Vec<u8> {
    let shape = shape_of(draw, size, edition);
    let weights = draw.pick(weights);
    grow(draw, &Shape { weights, vertices: shape.vertices.max(5), full: true, ..shape })
}

/// So many futures with nothing in them, and a force with this number.
pub fn far_force(futures: u32, number: u32) -> Vec<u8> {
    [[FUTURE, 0].repeat(futures as usize), vec![FORCE], number_bytes(number), vec![0]].concat()
}

fn shape_of(draw: &mut Draw, size: Size, edition: Edition) -> Shape {
    match size {
        Size::Small => shape(draw, edition, 3, 48, 16),
        Size::Middle => shape(draw, edition, 30, 500, 120),
        Size::Large => large(draw, edition),
    }
}

const WITHOUT_FUTURES: [Weights; 7] = [
    [3, 2, 2, 2, 0, 0],
    [1, 1, 1, 1, 0, 0],
    [4, 1, 0, 0, 0, 0],
    [1, 0, 4, 0, 0, 0],
    [1, 0, 0, 4, 0, 0],
    [0, 2, 3, 0, 0, 0],
    [0, 1, 1, 2, 0, 0],
];
const WITH_FUTURES: [Weights; 9] = [
    [3, 2, 2, 2, 3, 5],
    [1, 1, 1, 1, 1, 1],
    [2, 0, 0, 0, 2, 3],
    [0, 0, 0, 0, 1, 2],
    [1, 0, 0, 0, 6, 2],
    [1, 2, 0, 0, 2, 4],
    [1, 0, 2, 0, 2, 4],
    [1, 0, 0, 2, 2, 4],
    [0, 0, 0, 3, 3, 1],
];

const WITH_FORKS: [Weights; 8] = [
    [1, 0, 0, 1, 0, 0],
    [0, 0, 0, 1, 0, 0],
    [2, 1, 1, 3, 0, 0],
    [1, 2, 0, 3, 0, 0],
    [1, 0, 2, 3, 0, 0],
    [1, 0, 0, 3, 2, 3],
    [1, 1, 1, 3, 1, 2],
    [0, 1, 1, 4, 1, 1],
];

fn shape(draw: &mut Draw, edition: Edition, least_bytes: u32, most_bytes: u32, most_vertices: u32) -> Shape {
    Shape {
        bytes: draw.between(least_bytes, most_bytes) as usize,
        vertices: draw.between(2, most_vertices),
        edition,
        levels: draw.pick(&[2, 3, 5, 32, 32]),
        weights: if draw.one_in(2) { draw.pick(&WITH_FUTURES) } else { draw.pick(&WITHOUT_FUTURES) },
        numbers: draw.pick(&[[1, 0, 0, 0, 0], [3, 1, 1, 1, 1], [1, 1, 1, 1, 1], [0, 0, 0, 1, 2]]),
        ends: draw.pick(&[2, 3, 5]),
        full: !draw.one_in(4),
    }
}

/// At one limit or more.
fn large(draw: &mut Draw, edition: Edition) -> Shape {
    const DEEP: [Weights; 6] =
        [[1, 1, 1, 1, 1, 1], [0, 1, 0, 0, 0, 0], [1, 0, 5, 0, 0, 0], [1, 0, 0, 5, 0, 0], [1, 0, 0, 0, 5, 0], [0, 0, 0, 0, 3, 1]];
    let mut shape = Shape { full: true, ..shape(draw, edition, 1000, 4096, 1024) };
    match draw.below(4) {
        0 => shape.vertices = 1024,
        1 => shape.bytes = 4096,
        2 => (shape.vertices, shape.bytes) = (1024, 4096),
        _ => (shape.levels, shape.ends, shape.weights) = (32, 40, draw.pick(&DEEP)),
    }
    shape
}

/// The vertex rows and edge rows that a valid program needs in an edition, and its levels.
pub fn needs(program: &[u8], edition: Edition) -> (u32, u32, usize) {
    let (mut vertices, mut edges, mut levels) = (2, 1, 0);
    // For each open body, how many of its item's bodies come after it.
    let mut open = vec![0];
    let mut bytes = program.iter();
    while let Some(byte) = bytes.next() {
        levels = levels.max(open.len());
        match *byte {
            0 => match open.pop() {
                Some(1) => open.push(0),
                _ => continue,
            },
            JOB => while bytes.next().is_some_and(|byte| *byte > 127) {},
            ASYNC => {
                (vertices, edges) = (vertices + 1, edges + 1);
                open.push(0);
            }
            FINISH | FUTURE => {
                (vertices, edges) = (vertices + 2, edges + 1);
                open.push(0);
            }
            FORCE => {
                (vertices, edges) = (vertices + 1, edges + 1);
                while bytes.next().is_some_and(|byte| *byte > 127) {}
            }
            _ => {
                (vertices, edges) = (vertices + by_a_fork(edition), edges + 2);
                open.push(1);
            }
        }
    }
    (vertices, edges, levels)
}

/// The mixed program of the benchmark, the same each time: 4,000 bytes, 1,000 vertices of the first edition, 32 levels, without futures.
pub fn mixed() -> Vec<u8> {
    let (weights, numbers) = ([8, 2, 1, 2, 0, 0], [1, 1, 1, 0, 0]);
    let shape = Shape { bytes: 4000, vertices: 1000, edition: Edition::First, levels: 32, weights, numbers, ends: 3, full: true };
    grow(&mut Draw::new(8), &shape)
}

/// A program that loading refuses in an edition, mostly: just over a limit, with a number at the edge, with a force of no such future,
/// changed here and there, or anything.
pub fn damaged(draw: &mut Draw, size: Size, edition: Edition) -> Vec<u8> {
    let mut program = match draw.below(12) {
        0 => return just_over(draw, edition),
        1 => return scribble(draw),
        2 | 3 => return misnumbered(draw, size, edition),
        4 | 5 => return misforced(draw, size, edition),
        _ => valid(draw, size, edition),
    };
    for _ in 0..draw.pick(&[1, 1, 1, 2, 3, 8]) {
        damage(draw, &mut program);
    }
    program
}

fn just_over(draw: &mut Draw, edition: Edition) -> Vec<u8> {
    const MANY_VERTICES: [Weights; 6] =
        [[0, 1, 0, 0, 0, 0], [0, 0, 1, 0, 0, 0], [0, 0, 0, 1, 0, 0], [0, 1, 1, 2, 0, 0], [0, 0, 0, 0, 1, 0], [0, 0, 0, 0, 1, 2]];
    let mut shape = large(draw, edition);
    match draw.below(3) {
        0 => {
            (shape.bytes, shape.numbers) = (4097 + draw.index(5), [1, 0, 0, 0, 0]);
            shape.weights[0] += 1;
        }
        1 => (shape.vertices, shape.bytes, shape.weights) = (draw.between(1025, 1030), 4096, draw.pick(&MANY_VERTICES)),
        _ => (shape.levels, shape.ends, shape.weights) = (draw.between(33, 40), 40, [1, 2, 2, 2, 2, 1]),
    }
    grow(draw, &shape)
}

/// Bytes that begin something, mostly.
fn scribble(draw: &mut Draw) -> Vec<u8> {
    let length = draw.pick(&[0, 1, 2, 3, 5, 9, 20, 60]);
    (0..length).map(|_| odd_byte(draw)).collect()
}

fn odd_byte(draw: &mut Draw) -> u8 {
    match draw.below(3) {
        0 => draw.pick(&[7, 8, 0x7F, 0x80, 0x81, 0x83, 0x84, 0xFE, 0xFF]),
        1 => draw.bits() as u8,
        _ => draw.below(7) as u8,
    }
}

/// A valid program with one job or force more, whose number is at the edge of what numbers are, or past it. Once in four times the program
/// ends inside that number.
fn misnumbered(draw: &mut Draw, size: Size, edition: Edition) -> Vec<u8> {
    let mut program = valid(draw, size, edition);
    let (at, _) = draw.pick(&starts(&program));
    let mut item = vec![numbered(draw)];
    item.extend(edge_number(draw));
    if draw.one_in(4) {
        program.truncate(at);
        item.pop();
    }
    program.splice(at..at, item);
    program
}

/// The first byte of an item with a number.
fn numbered(draw: &mut Draw) -> u8 {
    draw.pick(&[JOB, FORCE])
}

/// A valid program with one force more, mostly of no such future: the number is just past the futures open there, the last of them, or any.
/// The forces behind it may then be meant for a future that is not open there.
fn misforced(draw: &mut Draw, size: Size, edition: Edition) -> Vec<u8> {
    let mut program = with_futures(draw, size, edition);
    let (at, open) = draw.pick(&starts(&program));
    let number = match draw.below(6) {
        0 => open.saturating_sub(1),
        1 => open + draw.below(130),
        2 => draw.wild(),
        _ => open,
    };
    let force = [vec![FORCE], number_bytes(number)].concat();
    program.splice(at..at, force);
    program
}

/// Where items and end bytes start in a valid program, and how many futures are open there.
pub fn starts(program: &[u8]) -> Vec<(usize, u32)> {
    let mut starts = Vec::new();
    // For each open body the item that it is in, how many of that item's bodies come after it, and the futures open at the item.
    let mut bodies = Vec::new();
    let (mut in_number, mut open) = (false, 0);
    for (at, &byte) in program.iter().enumerate() {
        if in_number {
            in_number = byte > 127;
            continue;
        }
        starts.push((at, open));
        match byte {
            JOB | FORCE => in_number = true,
            ASYNC | FINISH | FUTURE => bodies.push((byte, 0, open)),
            FORK => bodies.push((byte, 1, open)),
            _ => match bodies.pop() {
                Some((FORK, 1, before)) => {
                    open = before;
                    bodies.push((FORK, 0, open));
                }
                Some((item, _, before)) => open = before + u32::from(item == FUTURE),
                None => {}
            },
        }
    }
    starts
}

/// The bytes of a number at the edge of what numbers are, or past it.
fn edge_number(draw: &mut Draw) -> Vec<u8> {
    let mut bytes = Vec::new();
    for _ in 0..draw.pick(&[0, 1, 2, 3, 4, 4, 4, 5, 6]) {
        let any = 0x80 | draw.bits() as u8;
        bytes.push(draw.pick(&[0x80, 0xFF, any]));
    }
    bytes.push(draw.pick(&[0, 1, 0x0F, 0x10, 0x1F, 0x7F]));
    bytes
}

/// Flips, sets, puts in, takes out, cuts or appends bytes, or puts in a job or a force with a number at the edge.
fn damage(draw: &mut Draw, program: &mut Vec<u8>) {
    if program.is_empty() {
        program.push(odd_byte(draw));
        return;
    }
    let at = draw.index(program.len());
    match draw.below(8) {
        0 => program[at] ^= 1 << draw.below(8),
        1 => program[at] = odd_byte(draw),
        2 => program.insert(at, odd_byte(draw)),
        3 => {
            program.remove(at);
        }
        4 => program.truncate(at),
        5 => {
            for _ in 0..=draw.below(3) {
                program.push(odd_byte(draw));
            }
        }
        6 => {
            program.splice(at..at, edge_number(draw));
            program.insert(at, numbered(draw));
        }
        _ => {
            // Cut inside a number.
            program.truncate(at);
            program.push(numbered(draw));
            program.extend(edge_number(draw));
            program.pop();
        }
    }
}
