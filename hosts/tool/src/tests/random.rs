//! Programs drawn at random, the same ones in each run.

use crate::number;

/// A small generator of numbers (xorshift).
pub struct Dice(pub u64);

impl Dice {
    fn roll(&mut self) -> u64 {
        self.0 ^= self.0 << 13;
        self.0 ^= self.0 >> 7;
        self.0 ^= self.0 << 17;
        self.0.wrapping_mul(0x2545_F491_4F6C_DD1D) >> 32
    }

    /// Below a bound that is not 0.
    pub fn below(&mut self, bound: usize) -> usize {
        (self.roll() % bound as u64) as usize
    }

    pub fn one_in(&mut self, odds: usize) -> bool {
        self.below(odds) == 0
    }

    pub fn shuffle<T>(&mut self, list: &mut [T]) {
        for at in (1..list.len()).rev() {
            list.swap(at, self.below(at + 1));
        }
    }
}

/// A program of so many items. How often each kind is drawn differs from program to program, and some bodies have no item.
pub fn program(dice: &mut Dice, items: usize) -> Vec<u8> {
    let mut first_bytes = vec![1; 3];
    for first in [2, 3, 4, 5, 6, 6] {
        first_bytes.extend(vec![first; [0, 1, 3][dice.below(3)]]);
    }
    let mut drawing = Drawing { dice, first_bytes, items, program: Vec::new() };
    drawing.body(1, 0);
    drawing.program
}

struct Drawing<'a> {
    dice: &'a mut Dice,
    /// What items begin with, each as often as there are chances for it.
    first_bytes: Vec<u8>,
    /// So many are still to be drawn.
    items: usize,
    program: Vec<u8>,
}

impl Drawing<'_> {
    /// A body at a level, where so many futures are open.
    fn body(&mut self, level: usize, mut open: usize) {
        // The program's own body goes on to the last item.
        let mut ends = level > 1 && self.dice.one_in(6);
        while self.items > 0 && !ends {
            self.items -= 1;
            match self.first_bytes[self.dice.below(self.first_bytes.len())] {
                first @ 2..=5 if level < 6 => {
                    self.program.push(first);
                    for _ in 0..if first == 4 { 2 } else { 1 } {
                        self.body(level + 1, open);
                    }
                    open += usize::from(first == 5);
                }
                6 if open > 0 => {
                    let future = self.dice.below(open) as u32;
                    self.numbered(6, future);
                }
                _ => {
                    // Few numbers, of different lengths, so that often several jobs have the same.
                    let number = [0, 1, 6, 127, 128, 14_074_000, u32::MAX][self.dice.below(7)];
                    self.numbered(1, number);
                }
            }
            ends = level > 1 && self.dice.one_in(2);
        }
        self.program.push(0);
    }

    fn numbered(&mut self, first: u8, number: u32) {
        self.program.push(first);
        self.program.extend(number::bytes(number.into()));
    }
}
