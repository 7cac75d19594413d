//! The two C entries on bytes, with the packing of what they return: number in bits 0 to 7, place in bits 8 to 31, length or count of theirs in bits 32 to 47,
//! count of ours in bits 48 to 63.

use crate::refusal::{refuse_at, Refusal};
use crate::{message, reconcile, sketch};

/// What an entry returns, taken apart.
#[derive(Clone, Copy, Debug, PartialEq, Eq)]
pub struct Answer {
    pub number: u8,
    pub place: u32,
    /// Length of the message, or count of theirs.
    pub first: u16,
    /// Count of ours.
    pub second: u16,
}

impl Answer {
    pub fn of(packed: u64) -> Answer {
        Answer { number: packed as u8, place: (packed >> 8) as u32 & 0xff_ffff, first: (packed >> 32) as u16, second: (packed >> 48) as u16 }
    }
}

fn packed(outcome: Result<(usize, usize), Refusal>) -> u64 {
    match outcome {
        Ok((first, second)) => (first as u64) * (1 << 32) + (second as u64) * (1 << 48),
        Err(refusal) => u64::from(refusal.number) + u64::from(refusal.place) * 256,
    }
}

/// Keys as bytes, four a key, the lowest first.
pub fn bytes_of(keys: &[u32]) -> Vec<u8> {
    keys.iter().flat_map(|key| key.to_le_bytes()).collect()
}

pub fn keys_of(bytes: &[u8]) -> Vec<u32> {
    bytes.chunks_exact(4).map(|b| u32::from_le_bytes([b[0], b[1], b[2], b[3]])).collect()
}

/// List to message.
pub fn sketch_entry(plan: u32, list: &[u8], buffer: &mut [u8]) -> u64 {
    packed(sketch_outcome(plan, list, buffer))
}

fn sketch_outcome(plan: u32, list: &[u8], buffer: &mut [u8]) -> Result<(usize, usize), Refusal> {
    whole_keys(&[(0, list.len())])?;
    let made = message::write(&sketch::sketch(plan, &keys_of(list))?);
    if buffer.len() < made.len() {
        return refuse_at(5, 0);
    }
    buffer[..made.len()].copy_from_slice(&made);
    Ok((made.len(), 0))
}

/// Message with home list to two lists.
pub fn reconcile_entry(message: &[u8], home: &[u8], theirs: &mut [u8], ours: &mut [u8]) -> u64 {
    packed(reconcile_outcome(message, home, theirs, ours))
}

fn reconcile_outcome(message: &[u8], home: &[u8], theirs: &mut [u8], ours: &mut [u8]) -> Result<(usize, usize), Refusal> {
    whole_keys(&[(1, home.len()), (2, theirs.len()), (3, ours.len())])?;
    let sketch = message::read(message)?;
    let answer = reconcile::reconcile(&sketch, &keys_of(home), theirs.len() / 4, ours.len() / 4)?;
    for (buffer, keys) in [(theirs, &answer.theirs), (ours, &answer.ours)] {
        buffer[..4 * keys.len()].copy_from_slice(&bytes_of(keys));
    }
    Ok((answer.theirs.len(), answer.ours.len()))
}

/// Refusal 5 for the first list buffer, given with its position in the call, whose length is no multiple of 4.
fn whole_keys(lists: &[(usize, usize)]) -> Result<(), Refusal> {
    match lists.iter().find(|(_, length)| length % 4 != 0) {
        Some(&(position, _)) => refuse_at(5, position),
        None => Ok(()),
    }
}

#[cfg(test)]
mod tests {
    use super::*;

    #[test]
    fn list_to_message() {
        let mut buffer = [9; 7];
        let answer = Answer::of(sketch_entry(0, &bytes_of(&[1, 2]), &mut buffer));
        assert_eq!(answer, Answer { number: 0, place: 0, first: 5, second: 0 });
        assert_eq!(buffer, [0x10, 0, 4, 0, 6, 9, 9]);
        assert_eq!(sketch_entry(0, &[], &mut buffer[..4]), 5);
        assert_eq!(sketch_entry(16, &[1, 2, 3], &mut buffer), 5);
        assert_eq!(sketch_entry(16, &[], &mut buffer[..0]), 1);
        assert_eq!(sketch_entry(0, &bytes_of(&[7, 65_473]), &mut buffer[..0]), 3 + 256);
    }

    #[test]
    fn message_and_home_to_lists() {
        let message = [0x11, 0, 2, 0xff, 0xfd, 0x7f, 0xfe, 0];
        let (mut theirs, mut ours) = ([7; 12], [8; 8]);
        let answer = reconcile_entry(&message, &bytes_of(&[1]), &mut theirs, &mut ours);
        assert_eq!(answer, 1 << 48 | 1 << 32);
        assert_eq!(theirs, [3, 0, 0, 0, 7, 7, 7, 7, 7, 7, 7, 7]);
        assert_eq!(ours, [1, 0, 0, 0, 8, 8, 8, 8]);
        assert_eq!(reconcile_entry(&[], &[0], &mut [0; 1], &mut [0; 1]), 5 + 256);
        assert_eq!(reconcile_entry(&[], &[], &mut [0; 1], &mut [0; 1]), 5 + 2 * 256);
        assert_eq!(reconcile_entry(&[], &[], &mut [], &mut [0; 1]), 5 + 3 * 256);
        assert_eq!(reconcile_entry(&[], &[], &mut [], &mut []), 7);
        assert_eq!(reconcile_entry(&message, &[], &mut [0; 4], &mut []), 5);
        assert_eq!(reconcile_entry(&message, &[], &mut [0; 8], &mut []), 5 + 256);
    }
}
