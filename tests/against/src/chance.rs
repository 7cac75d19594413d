//! Groups of random inputs. Each item has a generator of its own, made from the seed, the group and the item's index.

use crate::make;
use crate::tally::{in_parallel, Tally};
use second::entries::{bytes_of, keys_of};
use second::message;
use second::random::Random;
use second::sketch::{MOST_KEYS, SAMPLES};

/// Random sets at every plan, 255 too, into buffers of every fitting and unfitting length.
pub fn sketches(seed: u64, sets_a_plan: u64) -> Tally {
    in_parallel(17 * sets_a_plan, |index, tally| {
        let random = &mut Random::item(seed, 1, index);
        let plan = if index % 17 == 16 { 255 } else { (index % 17) as u32 };
        sketch_of_a_set(random, tally, plan);
    })
}

pub fn sketch_of_a_set(random: &mut Random, tally: &mut Tally, plan: u32) {
    let size = make::size(random);
    let keys = make::set(random, size);
    let needed = message::length(if plan == 255 { 8 } else { plan as usize });
    let length = match random.below(8) {
        0 => needed - 1,
        1 => random.below(needed as u64) as usize,
        2 => needed + random.below(100) as usize,
        _ => needed + random.below(4) as usize,
    };
    let buffer = random.bytes(length);
    let (answer, _) = tally.sketch(plan, &bytes_of(&keys), &buffer);
    let due = if length < needed { (5, 0) } else { (0, needed) };
    tally.check((answer.number, usize::from(answer.first)) == due, || format!("plan {plan}, {} keys, buffer of {length}: {answer:?}", keys.len()));
}

/// Random pairs of sets at every plan: differences of 0, 1, m − 1, m, m + 1 keys and beyond, shared out in every way, gaps of both signs.
pub fn differences(seed: u64, pairs_a_plan: u64) -> Tally {
    in_parallel(16 * pairs_a_plan, |index, tally| {
        let random = &mut Random::item(seed, 2, index);
        difference_of_a_pair(random, tally, (index % 16) as usize, index / 16);
    })
}

pub fn difference_of_a_pair(random: &mut Random, tally: &mut Tally, plan: usize, turn: u64) {
    let samples = SAMPLES[plan] as u64;
    let total = match turn % 10 {
        0 => 0,
        1 => 1,
        2 => samples.saturating_sub(2),
        3 => samples - 1,
        4 | 5 => samples,
        6 => samples + 1,
        7 => samples + 2,
        8 => samples + random.below(2 * samples + 4),
        _ => random.below(samples + 1),
    };
    let theirs = match random.below(5) {
        0 => 0,
        1 => total,
        2 => total / 2,
        _ => random.below(total + 1),
    };
    let (home, theirs, ours) = make::pair(random, theirs as usize, (total - theirs) as usize);
    let dome = make::dome(&home, &theirs, &ours);
    let (answer, made) = tally.sketch(plan as u32, &bytes_of(&dome), &[0; 139]);
    let made = &made[..usize::from(answer.first)];
    let length = |random: &mut Random| 4 * (samples + random.below(3)) as usize;
    let (theirs_length, ours_length) = (length(random), length(random));
    let (theirs_buffer, ours_buffer) = (random.bytes(theirs_length), random.bytes(ours_length));
    let (answer, theirs_after, ours_after) = tally.reconcile(made, &bytes_of(&home), &theirs_buffer, &ours_buffer);
    if total <= samples {
        let given = |buffer: &[u8], count: u16| keys_of(&buffer[..4 * usize::from(count)]);
        let holds = answer.number == 0 && given(&theirs_after, answer.first) == theirs && given(&ours_after, answer.second) == ours;
        tally.check(holds, || format!("plan {plan}, dome {dome:?}, home {home:?}: {answer:?}, due {theirs:?} and {ours:?}"));
    }
}

/// Well-formed messages that are mostly no set's.
pub fn values_of_no_set(seed: u64, messages_a_plan: u64) -> Tally {
    in_parallel(16 * messages_a_plan, |index, tally| {
        let random = &mut Random::item(seed, 3, index);
        values_of_one(random, tally, (index % 16) as usize, index / 16);
    })
}

pub fn values_of_one(random: &mut Random, tally: &mut Tally, plan: usize, turn: u64) {
    let (home, message) = if turn % 4 == 3 { make::values(random, plan) } else { make::fraction(random, plan) };
    let (theirs, ours) = (random.bytes(4 * SAMPLES[plan]), random.bytes(4 * SAMPLES[plan]));
    tally.reconcile(&message, &bytes_of(&home), &theirs, &ours);
}

/// One sample, no home or a small one: many values of the one field.
pub fn one_sample(step: usize) -> Tally {
    let homes: [&[u32]; 5] = [&[], &[0], &[1], &[65_472], &[0, 1, 2, 65_472]];
    let values: Vec<u64> = (1..=65_536).filter(|v| *v <= 70 || *v >= 65_460 || v % step as u64 == 0).collect();
    in_parallel(values.len() as u64, |index, tally| {
        for home in homes {
            for size in home.len().saturating_sub(1)..=home.len() + 1 {
                let message = message::fields(1, 0, size as u64, &[values[index as usize]]);
                tally.reconcile(&message, &bytes_of(home), &[0x11; 4], &[0x22; 4]);
            }
        }
    })
}

/// Valid inputs of both entries with messages, lists, lengths and plans damaged.
pub fn damaged(seed: u64, count: u64) -> Tally {
    in_parallel(count, |index, tally| damaged_call(&mut Random::item(seed, 4, index), tally))
}

pub fn damaged_call(random: &mut Random, tally: &mut Tally) {
    let plan = random.below(16) as usize;
    let samples = SAMPLES[plan];
    let theirs = random.below(samples as u64 / 2 + 2) as usize;
    let ours = random.below(samples as u64 / 2 + 2) as usize;
    let count = if random.once_in(50) { MOST_KEYS - theirs } else { random.below(60) as usize }.max(ours);
    let home = make::set(random, count);
    let (theirs, ours) = (make::strangers(random, &home, theirs), make::members(random, &home, ours));
    let dome = make::dome(&home, &theirs, &ours);
    if random.once_in(3) {
        let mut list = bytes_of(&dome);
        let mut request = plan as u32;
        let mut length = message::length(plan) + 2;
        for _ in 0..random.below(3) {
            match random.below(8) {
                0 => request = random.of(&[255, 16, 254, 256, 271, 1 << 16, u32::MAX]),
                1 => request ^= 1 << random.below(32),
                2 => length = random.below(150) as usize,
                3 => length = message::length(plan) - 1,
                _ => make::damage_list(random, &mut list),
            }
        }
        let buffer = random.bytes(length);
        tally.sketch(request, &list, &buffer);
        return;
    }
    let sketch = second::sketch::sketch(plan as u32, &dome).expect("a legal list");
    let (mut message, mut list) = (message::write(&sketch), bytes_of(&home));
    let (mut theirs_length, mut ours_length) = (4 * samples, 4 * samples);
    for _ in 0..=random.below(3) {
        match random.below(8) {
            0 => theirs_length = random.below(4 * samples as u64 + 9) as usize,
            1 => ours_length = random.below(4 * samples as u64 + 9) as usize,
            2 => theirs_length += 4 * random.below(3) as usize,
            3 | 4 => make::damage_list(random, &mut list),
            _ => make::damage(random, &mut message),
        }
    }
    let (theirs, ours) = (random.bytes(theirs_length), random.bytes(ours_length));
    tally.reconcile(&message, &list, &theirs, &ours);
}
