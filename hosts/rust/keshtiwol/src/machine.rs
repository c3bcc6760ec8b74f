use crate::{
    Answer, Chain, Edition, HandedOut, Job, Lowest, Refusal, Run, Tally, EDGE_TABLE, EDGE_WORDS, IN_COUNT, JOB_NUMBER, JOB_OFFSET,
    JOB_VERTEX, JOB_WORDS, ROWS, STATUS, VERTEX_RELEASED, VERTEX_TABLE, VERTEX_WORDS,
};

/// A loaded program with tables of its own, large enough for every program, and the edition in which it was loaded and goes on.
#[derive(Clone, Debug)]
pub struct Machine {
    edition: Edition,
    program: Vec<u8>,
    vertices: Vec<u32>,
    edges: Vec<u32>,
    tally: Tally,
    busy: Vec<u32>,
}

impl Machine {
    /// Loads a program in the first edition, or tells what is wrong with it.
    pub fn load(program: &[u8]) -> Result<Machine, Refusal> {
        Machine::load_in(program, Edition::First)
    }

    /// Loads a program in either edition.
    pub fn load_in(program: &[u8], edition: Edition) -> Result<Machine, Refusal> {
        let (vertices, edges, busy) = (vec![0; VERTEX_TABLE], vec![0; EDGE_TABLE], vec![0; ROWS]);
        let mut machine = Machine { edition, program: program.to_vec(), vertices, edges, tally: Tally::default(), busy };
        match crate::load(program, &mut machine.vertices, &mut machine.edges, &mut machine.tally, edition) {
            Answer::Refused { number, place } => Err(Refusal { number, place }),
            _ => Ok(machine),
        }
    }

    /// One step of a vertex. After [`Answer::Job`] run that job, and step this vertex again when it has ended. After [`Answer::Yield`] a
    /// step starts it again when no edge leads in.
    pub fn step(&mut self, vertex: u32) -> Answer {
        crate::step(&self.program, &mut self.vertices, &mut self.edges, &mut self.tally, self.edition, vertex)
    }

    /// Steps lowest vertices first, at most `budget` times.
    pub fn run(&mut self, budget: u32) -> Run {
        crate::run(&self.program, &mut self.vertices, &mut self.edges, &mut self.tally, self.edition, budget)
    }

    /// Steps the lowest vertex that can step and is not busy, again and again, at most `budget` times, and hands out the jobs that these
    /// steps name, at most `most`. Each of them is run once, on whatever thread; when it has ended, and not before, [`Machine::ended`] is
    /// told so.
    pub fn dispatch(&mut self, budget: u32, most: usize) -> HandedOut {
        // Each vertex has one job at a time, so this is the longest list that can be filled.
        let mut list = vec![0; JOB_WORDS * most.min(ROWS)];
        let Machine { edition, program, vertices, edges, tally, busy } = self;
        let dispatch = crate::dispatch(program, vertices, edges, tally, *edition, budget, busy, &mut list);
        let job = |row: &[u32]| Job { vertex: row[JOB_VERTEX], number: row[JOB_NUMBER], offset: row[JOB_OFFSET] };
        let jobs = list.chunks(JOB_WORDS).take(dispatch.handed as usize).map(job).collect();
        HandedOut { ending: dispatch.ending, taken: dispatch.taken, jobs }
    }

    /// The job of this vertex that a dispatch handed out has ended.
    ///
    /// # Panics
    ///
    /// Where the vertex is not busy.
    pub fn ended(&mut self, vertex: u32) {
        assert!(self.is_busy(vertex), "vertex {vertex} has no job that was handed out");
        self.busy[vertex as usize] = 0;
    }

    /// Whether a dispatch handed out a job of this vertex that has not ended.
    pub fn is_busy(&self, vertex: u32) -> bool {
        self.busy.get(vertex as usize).is_some_and(|mark| *mark != 0)
    }

    /// The lowest vertex that can step.
    pub fn lowest(&self) -> Lowest {
        crate::lowest(&self.program, &self.vertices, &self.edges, &self.tally, self.edition)
    }

    /// Whether a vertex can start: it is released, and no edge leads into it. That stands in two words of its row, so the engine is not
    /// called.
    pub fn may_start(&self, vertex: u32) -> bool {
        let row = self.vertices().chunks(VERTEX_WORDS).nth(vertex as usize);
        row.is_some_and(|row| row[STATUS] == VERTEX_RELEASED && row[IN_COUNT] == 0)
    }

    /// The shortest chain of held edges that leads from target back to source, target first, and of equally short ones the first in
    /// vertex numbers; or why there is none.
    pub fn chain(&self, source: u32, target: u32) -> Result<Vec<u32>, Refusal> {
        let mut list = vec![0; ROWS];
        match crate::chain(&self.vertices, &self.edges, &self.tally, source, target, &mut list) {
            Chain::Written(vertices) => {
                list.truncate(vertices as usize);
                Ok(list)
            }
            Chain::Refused { number, place } => Err(Refusal { number, place }),
        }
    }

    /// Vertices made, edges held and steps taken so far.
    pub fn tally(&self) -> Tally {
        self.tally
    }

    pub fn program(&self) -> &[u8] {
        &self.program
    }

    pub fn edition(&self) -> Edition {
        self.edition
    }

    /// The rows of the vertices made, [`VERTEX_WORDS`] words each.
    pub fn vertices(&self) -> &[u32] {
        &self.vertices[..VERTEX_WORDS * self.tally.made as usize]
    }

    /// The rows of the edges held, [`EDGE_WORDS`] words each.
    pub fn edges(&self) -> &[u32] {
        &self.edges[..EDGE_WORDS * self.tally.held as usize]
    }
}
