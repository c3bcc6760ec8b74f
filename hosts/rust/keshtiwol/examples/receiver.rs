//! A receiver on four threads: it retunes, filters and decodes four channels side by side, and logs what it heard. For yours, change
//! `PROGRAM` and `run_job`; the workers can stay. Run it with `cargo run --example receiver`.

use keshtiwol::{DispatchEnding, Ending, Job, Machine, ROWS, STEP_LIMIT};
use std::sync::{Condvar, Mutex, RwLock};
use std::{array, error, panic, process, thread};

#[rustfmt::skip]
const PROGRAM: &[u8] = &[
    0x01, 0x90, 0x81, 0xDB, 0x06,       // job 14,074,000, a retune: seven bits a byte, lowest first; the top bit says that more follow
    0x03,                               // finish: what comes after it waits for all that is in it, asyncs too
    0x02, 0x01, 0x11, 0x01, 0x21, 0x00, //   async, beside what comes after it: job 0x11 (filter 1), then job 0x21 (decode 1); its end
    0x02, 0x01, 0x12, 0x01, 0x22, 0x00, //   async: filter 2, then decode 2
    0x02, 0x01, 0x13, 0x01, 0x23, 0x00, //   async: filter 3, then decode 3
    0x02, 0x01, 0x14, 0x01, 0x24, 0x00, //   async: filter 4, then decode 4
    0x00,                               // the finish's end
    0x01, 0x30,                         // job 0x30: log
    0x00,                               // the program's end
];

/// What the jobs share. Safe Rust wants locks, and `try_` always gets them: the engine hands out no job before all those ahead have ended.
#[derive(Default)]
struct Receiver {
    tuned: RwLock<u32>,             // to so many hertz, by retune
    samples: RwLock<[u8; 20]>,      // taken by retune: the channels in turn, each character sent one higher
    channels: [RwLock<[u8; 5]>; 4], // each filled by its filter, changed by its decode, read by log
}

impl Receiver {
    fn retune(&self, hertz: u32) {
        *self.tuned.try_write().unwrap() = hertz;
        *self.samples.try_write().unwrap() = *b"RRRR2345BEHKCFILDGJM";
    }
    fn filter(&self, n: usize) {
        let samples = self.samples.try_read().unwrap();
        *self.channels[n - 1].try_write().unwrap() = array::from_fn(|i| samples[4 * i + n - 1]);
    }
    fn decode(&self, n: usize) {
        self.channels[n - 1].try_write().unwrap().iter_mut().for_each(|character| *character -= 1);
    }
    fn log_heard(&self) {
        println!("{} Hz", self.tuned.try_read().unwrap());
        for (n, channel) in (1..).zip(&self.channels) {
            println!("channel {n}: {}", String::from_utf8_lossy(&*channel.try_read().unwrap()));
        }
    }
    fn run_job(&self, number: u32) {
        match number {
            1_000_000.. => self.retune(number),
            0x11..=0x14 => self.filter(number as usize - 0x10),
            0x21..=0x24 => self.decode(number as usize - 0x20),
            0x30 => self.log_heard(),
            _ => panic!("no job has the number {number}"),
        }
    }
}

/// The host's part of the bargain with the engine: one call at a time, under a lock, and a job told ended when it is.
struct Host {
    machine: Machine, // lends the engine the same bytes, tables, tally and marks at each call
    jobs: Vec<Job>,   // handed out, and not yet begun
}

fn work(receiver: &Receiver, lock: &Mutex<Host>, changed: &Condvar) {
    let mut host = lock.lock().unwrap();
    loop {
        if let Some(job) = host.jobs.pop() {
            // The job runs outside the lock. A panic in it ends the process: the other workers would wait for the job for ever.
            drop(host);
            panic::catch_unwind(|| receiver.run_job(job.number)).unwrap_or_else(|_| process::exit(1));
            host = lock.lock().unwrap();
            host.machine.ended(job.vertex);
            changed.notify_all();
            continue;
        }
        let handed_out = host.machine.dispatch(STEP_LIMIT, ROWS);
        if !handed_out.jobs.is_empty() {
            host.jobs = handed_out.jobs;
            changed.notify_all();
        } else if handed_out.ending == DispatchEnding::Waiting {
            host = changed.wait(host).unwrap(); // nothing more can start before a job has ended
        } else {
            return; // done: a loaded program has no other ending here
        }
    }
}

fn main() -> Result<(), Box<dyn error::Error>> {
    let machine = Machine::load(PROGRAM)?;
    let (receiver, lock, changed) = (Receiver::default(), Mutex::new(Host { machine, jobs: Vec::new() }), Condvar::new());
    thread::scope(|scope| {
        for _ in 0..4 {
            scope.spawn(|| work(&receiver, &lock, &changed));
        }
    });
    let all_finished = lock.into_inner().unwrap().machine.run(0).ending == Ending::Done; // a run of no steps tells this
    all_finished.then_some(()).ok_or("not all vertices are finished".into())
}
