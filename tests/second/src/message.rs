//! Messages as texts of the characters 0 and 1, most significant bit first.

use crate::refusal::{refuse, refuse_at, Refusal};
use crate::sketch::{Sketch, MOST_KEYS, SAMPLES};

/// Length in bytes of the message of a plan.
pub fn length(plan: usize) -> usize {
    (23 + 17 * SAMPLES[plan] + 7) / 8
}

pub fn write(sketch: &Sketch) -> Vec<u8> {
    fields(1, sketch.plan as u64, sketch.size as u64, &sketch.values)
}

/// A message of any fields that fit their widths, also of those that a reader must refuse; padded with zero bits.
pub fn fields(version: u64, plan: u64, size: u64, values: &[u64]) -> Vec<u8> {
    assert!(version < 16 && plan < 16 && size < 1 << 15 && values.iter().all(|&v| v < 1 << 17));
    let mut bits = format!("{version:04b}{plan:04b}{size:015b}");
    for value in values {
        bits += &format!("{value:017b}");
    }
    while bits.len() % 8 != 0 {
        bits.push('0');
    }
    bits.as_bytes().chunks(8).map(|byte| number(byte) as u8).collect()
}

pub fn read(message: &[u8]) -> Result<Sketch, Refusal> {
    if message.is_empty() {
        return refuse(7);
    }
    let text: String = message.iter().map(|byte| format!("{byte:08b}")).collect();
    let bits = text.as_bytes();
    let (version, plan) = (number(&bits[0..4]), number(&bits[4..8]) as usize);
    if version != 1 {
        return refuse(8);
    }
    if message.len() != length(plan) {
        return refuse(7);
    }
    let size = number(&bits[8..23]) as usize;
    if size > MOST_KEYS {
        return refuse(9);
    }
    let end = 23 + 17 * SAMPLES[plan];
    let values: Vec<u64> = bits[23..end].chunks(17).map(number).collect();
    if let Some(bad) = values.iter().position(|&value| value == 0 || value > 65_536) {
        return refuse_at(10, bad);
    }
    if bits[end..].contains(&b'1') {
        return refuse(11);
    }
    Ok(Sketch { plan, size, values })
}

/// The number that a text of bits stands for.
fn number(bits: &[u8]) -> u64 {
    bits.iter().fold(0, |n, &bit| 2 * n + u64::from(bit == b'1'))
}

#[cfg(test)]
mod tests {
    use super::*;
    use crate::sketch::sketch;

    fn refused(message: &[u8]) -> (u8, u32) {
        let r = read(message).unwrap_err();
        (r.number, r.place)
    }

    #[test]
    fn messages_of_the_document() {
        let message = |keys: &[u32]| write(&sketch(0, keys).unwrap());
        assert_eq!(message(&[]), [0x10, 0, 0, 0, 1]);
        assert_eq!(message(&[0]), [0x10, 0, 3, 0, 0]);
        assert_eq!(message(&[1, 2]), [0x10, 0, 4, 0, 6]);
        assert_eq!(write(&sketch(1, &[3]).unwrap()), [0x11, 0, 2, 0xff, 0xfd, 0x7f, 0xfe, 0]);
    }

    #[test]
    fn lengths() {
        assert_eq!((length(0), length(8), length(15)), (5, 37, 139));
        let padding: Vec<usize> = (0..16).map(|plan| 8 * length(plan) - 23 - 17 * SAMPLES[plan]).collect();
        assert_eq!(padding, [0, 7, 6, 5, 3, 1, 7, 5, 1, 5, 1, 5, 1, 1, 1, 1]);
    }

    #[test]
    fn what_is_written_is_read() {
        for plan in 0..16 {
            let sketch = sketch(plan, &[0, 1, 77, 65_472]).unwrap();
            assert_eq!(read(&write(&sketch)), Ok(sketch));
        }
    }

    #[test]
    fn refusals() {
        assert_eq!(refused(&[]), (7, 0));
        assert_eq!(refused(&[0x20]), (8, 0));
        assert_eq!(refused(&[0x10]), (7, 0));
        assert_eq!(refused(&[0; 300]), (8, 0));
        assert_eq!(refused(&[0x10, 0, 0, 0, 1, 0]), (7, 0));
        assert_eq!(read(&fields(1, 0, 16_384, &[1])).unwrap().size, 16_384);
        assert_eq!(refused(&fields(1, 0, 16_385, &[0])), (9, 0));
        assert_eq!(refused(&fields(1, 1, 1, &[5, 0])), (10, 1));
        assert_eq!(refused(&fields(1, 1, 1, &[65_537, 0])), (10, 0));
        assert_eq!(read(&fields(1, 1, 1, &[65_536, 1])).unwrap().values, [65_536, 1]);
        let mut padded = fields(1, 1, 1, &[5, 5]);
        *padded.last_mut().unwrap() |= 1;
        assert_eq!(refused(&padded), (11, 0));
    }
}
