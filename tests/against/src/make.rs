//! Random inputs.

use second::entries::bytes_of;
use second::field::Field;
use second::message;
use second::polynomial::{at, with_roots};
use second::random::Random;
use second::setting::DOCUMENT;
use second::sketch::{MOST_KEYS, SAMPLES};
use std::collections::BTreeSet;

const FIELD: Field = DOCUMENT.field;

/// How many keys a list has: mostly few, at times the most.
pub fn size(random: &mut Random) -> usize {
    match random.below(40) {
        0 => MOST_KEYS - random.below(3) as usize,
        1 => random.below(MOST_KEYS as u64 + 1) as usize,
        2..=5 => random.below(3_000) as usize,
        6..=15 => random.below(400) as usize,
        _ => random.below(40) as usize,
    }
}

/// An ascending list of so many keys: a run of neighbours, or keys from everywhere with the lowest and the highest more often than by chance.
pub fn set(random: &mut Random, size: usize) -> Vec<u32> {
    let highest = u64::from(DOCUMENT.highest_key());
    if random.once_in(5) {
        let room = highest + 1 - size as u64;
        let start = match random.below(3) {
            0 => 0,
            1 => room,
            _ => random.below(room + 1),
        };
        return (start..start + size as u64).map(|key| key as u32).collect();
    }
    let mut keys: BTreeSet<u32> = [0, highest as u32].into_iter().filter(|_| random.once_in(4)).take(size).collect();
    while keys.len() < size {
        keys.insert(random.below(highest + 1) as u32);
    }
    keys.into_iter().collect()
}

/// Keys that are not in a list.
pub fn strangers(random: &mut Random, home: &[u32], count: usize) -> Vec<u32> {
    let mut keys = BTreeSet::new();
    if count > 0 && !home.contains(&0) && random.once_in(3) {
        keys.insert(0);
    }
    while keys.len() < count {
        let key = random.below(u64::from(DOCUMENT.highest_key()) + 1) as u32;
        if home.binary_search(&key).is_err() {
            keys.insert(key);
        }
    }
    keys.into_iter().collect()
}

/// Keys of a list, at most all.
pub fn members(random: &mut Random, home: &[u32], count: usize) -> Vec<u32> {
    let mut keys = BTreeSet::new();
    if count > 0 && home.first() == Some(&0) && random.once_in(3) {
        keys.insert(0);
    }
    while keys.len() < count.min(home.len()) {
        keys.insert(random.of(home));
    }
    keys.into_iter().collect()
}

/// A home list, with what the dome has and home has not, and the reverse; both lists stay within their limit.
pub fn pair(random: &mut Random, theirs: usize, ours: usize) -> (Vec<u32>, Vec<u32>, Vec<u32>) {
    let count = size(random).max(ours).min(MOST_KEYS - theirs.saturating_sub(ours));
    let home = set(random, count);
    let theirs = strangers(random, &home, theirs);
    let ours = members(random, &home, ours);
    (home, theirs, ours)
}

/// What the dome holds.
pub fn dome(home: &[u32], theirs: &[u32], ours: &[u32]) -> Vec<u32> {
    let mut keys: Vec<u32> = home.iter().filter(|key| ours.binary_search(key).is_err()).chain(theirs).copied().collect();
    keys.sort();
    keys
}

/// A well-formed message whose values are those of a fraction times home's values, and that is mostly no set's: the two polynomials of the fraction take their
/// roots from keys that they must not have, twice the same, from numbers that are no keys, from a point that both share, or have factors without roots. At times
/// some values are changed. Gives home and message.
pub fn fraction(random: &mut Random, plan: usize) -> (Vec<u32>, Vec<u8>) {
    let samples = SAMPLES[plan];
    let total = if random.once_in(3) { samples as u64 } else { random.below(samples as u64 + 1) };
    let above = random.below(total + 1) as usize;
    let below = total as usize - above;
    let (home, theirs, ours) = pair(random, above, below);
    let mut upper: Vec<u64> = theirs.into_iter().map(u64::from).collect();
    let mut lower: Vec<u64> = ours.into_iter().map(u64::from).collect();
    let flaw = random.below(8);
    let side = if random.once_in(2) { &mut upper } else { &mut lower };
    spoil(random, side, &home, samples, flaw);
    if flaw == 7 && !upper.is_empty() && !lower.is_empty() {
        // A common root at a point: whatever the value there, the undivided pair agrees with it.
        let point = DOCUMENT.point(1 + random.below(samples as u64) as usize);
        (upper[0], lower[0]) = (point, point);
    }
    let (mut top, mut bottom) = (with_roots(FIELD, &upper), with_roots(FIELD, &lower));
    if flaw == 5 && !upper.is_empty() {
        // Raising the constant mostly leaves a polynomial without its former roots.
        top[0] = FIELD.add(top[0], 1);
    }
    if flaw == 6 && !lower.is_empty() {
        bottom[0] = FIELD.add(bottom[0], 1);
    }
    let home_values = DOCUMENT.values(&home, samples);
    let mut values: Vec<u64> = (1..=samples)
        .map(|i| {
            let e = DOCUMENT.point(i);
            FIELD.div(FIELD.mul(at(FIELD, &top, e), home_values[i - 1]), at(FIELD, &bottom, e))
        })
        .collect();
    for _ in 0..random.below(5).saturating_sub(2) {
        values[random.below(samples as u64) as usize] = 1 + random.below(65_536);
    }
    values.iter_mut().filter(|value| **value == 0).for_each(|value| *value = 1 + random.below(65_536));
    let size = (home.len() + top.len()).saturating_sub(bottom.len()).min(MOST_KEYS);
    let message = message::fields(1, plan as u64, size as u64, &values);
    (home, message)
}

/// Puts a root where it must not be.
fn spoil(random: &mut Random, roots: &mut [u64], home: &[u32], samples: usize, flaw: u64) {
    if roots.is_empty() {
        return;
    }
    let last = roots.len() - 1;
    let highest = u64::from(DOCUMENT.highest_key());
    match flaw {
        // Twice the same.
        0 => roots[last] = roots[0],
        // A number above the keys, below the points in use if there is room.
        1 => roots[last] = highest + 1 + random.below(64 - samples as u64 + 1).min(63),
        // A key of the other side.
        2 if !home.is_empty() => roots[last] = u64::from(random.of(home)),
        3 => roots[last] = random.below(highest + 1),
        _ => {}
    }
}

/// A well-formed message of random values, of a size that lets reconciling go on.
pub fn values(random: &mut Random, plan: usize) -> (Vec<u32>, Vec<u8>) {
    let samples = SAMPLES[plan];
    let count = size(random);
    let home = set(random, count);
    let gap = random.from_to(-(samples as i64) - 1, samples as i64 + 1);
    let size = (home.len() as i64 + gap).clamp(0, MOST_KEYS as i64) as u64;
    let values: Vec<u64> = (0..samples).map(|_| 1 + random.below(65_536)).collect();
    (home, message::fields(1, plan as u64, size, &values))
}

/// Damages bytes: a bit, a byte, the length.
pub fn damage(random: &mut Random, bytes: &mut Vec<u8>) {
    let at = if bytes.is_empty() { 0 } else { random.below(bytes.len() as u64) as usize };
    let byte = random.next() as u8;
    match random.below(8) {
        0 => bytes.truncate(at),
        1 => bytes.push(byte),
        2 => bytes.insert(at, byte),
        3 if !bytes.is_empty() => drop(bytes.remove(at)),
        4 if !bytes.is_empty() => bytes[at] = random.of(&[0, 1, 0x10, 0x7f, 0x80, 0xff]),
        5 if !bytes.is_empty() => bytes[at] = byte,
        6 if !bytes.is_empty() => *bytes.last_mut().unwrap() ^= 1 << random.below(8),
        _ if !bytes.is_empty() => bytes[at] ^= 1 << random.below(8),
        _ => {}
    }
}

/// Damages a list as a list: keys out of order, twice, too high, away, or its bytes.
pub fn damage_list(random: &mut Random, bytes: &mut Vec<u8>) {
    let mut keys = second::entries::keys_of(bytes);
    if keys.is_empty() || random.once_in(3) {
        return damage(random, bytes);
    }
    let at = random.below(keys.len() as u64) as usize;
    let other = random.below(keys.len() as u64) as usize;
    match random.below(6) {
        0 => keys.swap(at, other),
        1 => keys[at] = keys[other],
        2 => keys[at] = 65_470 + random.below(70) as u32,
        3 => keys[at] = keys[at].wrapping_add(random.of(&[65_536, 65_537, 1 << 31])),
        4 => drop(keys.remove(at)),
        _ => keys[at] = random.next() as u32,
    }
    *bytes = bytes_of(&keys);
}
