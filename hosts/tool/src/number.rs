//! A job's or a force's number in bytes: groups of seven bits, lowest first, the top bit set on all but the last.

/// So many bytes a number has at most.
const LONGEST: usize = 5;

/// The number that starts at a place, and how many bytes it has. None where neither the program's bytes nor five bring its last one. Five
/// groups hold more than a number may.
pub fn at(program: &[u8], place: usize) -> Option<(u64, usize)> {
    let mut value = 0;
    for (group, &byte) in program[place..].iter().take(LONGEST).enumerate() {
        value |= u64::from(byte & 0x7F) << (7 * group);
        if byte & 0x80 == 0 {
            return Some((value, group + 1));
        }
    }
    None
}

/// The number's bytes, as few as can be.
pub fn bytes(mut number: u64) -> Vec<u8> {
    let mut bytes = Vec::new();
    while number > 0x7F {
        bytes.push(0x80 | (number & 0x7F) as u8);
        number >>= 7;
    }
    bytes.push(number as u8);
    bytes
}

#[cfg(test)]
mod tests {
    use super::*;
    use keshtiwol::{Answer, Machine};

    #[test]
    fn bytes_without_a_last_one() {
        for length in 0..12 {
            assert_eq!(at(&vec![0x80; length], 0), None);
        }
        assert_eq!(at(&[0xFF, 0xFF, 0xFF, 0xFF, 0xFF, 0], 0), None);
        assert_eq!(at(&[1], 1), None);
    }

    /// What the engine refuses for other reasons is read too.
    #[test]
    fn long_forms_and_large_numbers() {
        assert_eq!(at(&[1, 0x80, 0, 0], 1), Some((0, 2)));
        assert_eq!(at(&[0x90, 0x80, 0x80, 0], 0), Some((16, 4)));
        assert_eq!(at(&[0xFF, 0xFF, 0xFF, 0xFF, 0x7F], 0), Some(((1 << 35) - 1, 5)));
    }

    /// Around every power of two: what is written is read again, and the engine takes it for the same job.
    #[test]
    fn written_and_read() {
        assert_eq!(bytes(14_074_000), [0x90, 0x81, 0xDB, 6]);
        for power in 0..=32 {
            for number in [(1u64 << power) - 1, 1 << power, (1 << power) + 1].into_iter().filter(|&number| number <= u32::MAX.into()) {
                let bytes = bytes(number);
                assert_eq!(at(&bytes, 0), Some((number, bytes.len())));
                let mut machine = Machine::load(&[&[1], &bytes[..], &[0]].concat()).unwrap();
                machine.step(0);
                assert_eq!(machine.step(0), Answer::Job { number: number as u32, offset: 0 });
            }
        }
    }
}
