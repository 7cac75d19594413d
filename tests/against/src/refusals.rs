//! Each refusal on purpose, with the number and place that the document gives, and pairs of faults for their order.

use crate::tally::Tally;
use second::entries::bytes_of;
use second::message::{fields, length};
use second::setting::DOCUMENT;
use second::sketch::SAMPLES;

/// Lists and plans: 1 to 5 of the first entry.
pub fn of_lists(tally: &mut Tally) {
    let room = [0x77; 150];
    let mut due = |plan: u32, list: &[u8], buffer: &[u8], number: u8, place: u32| {
        let (answer, _) = tally.sketch(plan, list, buffer);
        tally.check((answer.number, answer.place) == (number, place), || format!("plan {plan}, list of {} bytes: {answer:?}, due {number} at {place}", list.len()));
    };
    for plan in (16..255).chain(256..600).chain([65_536, 65_551, 1 << 24, u32::MAX - 240, u32::MAX]) {
        due(plan, &[], &room, 1, 0);
        due(plan, &bytes_of(&[70_000]), &[], 1, 0);
        due(plan, &[1], &[], 5, 0);
    }
    for plan in (0..16).chain([255]) {
        let full: Vec<u32> = (0..16_384).map(|k| k * 3).collect();
        let over: Vec<u32> = (0..16_385).collect();
        due(plan, &bytes_of(&over), &room, 2, 0);
        due(plan, &bytes_of(&vec![70_000; 16_385]), &[], 2, 0);
        due(plan, &bytes_of(&vec![0; 20_000]), &room, 2, 0);
        for (keys, number, place) in [
            (vec![70_000, 70_000], 3, 0),
            (vec![5, 70_000, 3], 3, 1),
            (vec![5, 4, 70_000], 4, 1),
            (vec![70_000, 1], 3, 0),
            (vec![65_473], 3, 0),
            (vec![65_536], 3, 0),
            (vec![65_537], 3, 0),
            (vec![65_539], 3, 0),
            (vec![u32::MAX], 3, 0),
            (vec![1 << 31], 3, 0),
            (vec![0, 0], 4, 1),
            (vec![65_472, 65_472], 4, 1),
            (vec![65_472, 65_473], 3, 1),
            (vec![1, 2, 1], 4, 2),
            ([&full[..16_383], &[65_473]].concat(), 3, 16_383),
            ([&full[..16_383], &[full[16_382]]].concat(), 4, 16_383),
        ] {
            due(plan, &bytes_of(&keys), &room, number, place);
            due(plan, &bytes_of(&keys), &[], number, place);
        }
        for odd in [1, 2, 3, 5, 65_537, 65_538, 65_539, 70_001] {
            due(plan, &vec![0xff; odd], &room, 5, 0);
        }
        let needed = length(if plan == 255 { 8 } else { plan as usize });
        for buffer in 0..=needed + 4 {
            due(plan, &bytes_of(&[3, 9]), &room[..buffer], if buffer < needed { 5 } else { 0 }, 0);
        }
        due(plan, &bytes_of(&full), &room, 0, 0);
        due(plan, &bytes_of(&full), &room[..needed - 1], 5, 0);
    }
}

/// Messages: 7 to 11 of the second entry.
pub fn of_messages(tally: &mut Tally) {
    for plan in 0..16 {
        let samples = SAMPLES[plan];
        let good = fields(1, plan as u64, 3, &vec![5; samples]);
        // Home and buffers that are refused too, so that the message comes first.
        let homes = [bytes_of(&[1, 2, 3]), bytes_of(&[70_000]), bytes_of(&[2, 1]), bytes_of(&vec![0; 16_385])];
        let mut due = |message: &[u8], number: u8, place: usize| {
            for (i, home) in homes.iter().enumerate() {
                let room = vec![0x33; if i == 0 { 4 * samples } else { 0 }];
                let (answer, _, _) = tally.reconcile(message, home, &room, &room);
                let holds = (answer.number, answer.place as usize) == (number, place);
                tally.check(holds, || format!("message {message:02x?}: {answer:?}, due {number} at {place}"));
            }
        };
        due(&[], 7, 0);
        for byte in 0..=255u8 {
            let number = if byte >> 4 == 1 { 7 } else { 8 };
            due(&[byte], number, 0);
            due(&[&[byte], &[0; 300][..]].concat(), number, 0);
        }
        for cut in 1..good.len() {
            due(&good[..cut], 7, 0);
        }
        for more in 1..5 {
            due(&[&good[..], &vec![0; more]].concat(), 7, 0);
        }
        for version in (0..16).filter(|&version| version != 1) {
            due(&fields(version, plan as u64, 20_000, &vec![0; samples]), 8, 0);
        }
        for size in [16_385, 16_386, 20_000, 24_576, 32_766, 32_767] {
            due(&fields(1, plan as u64, size, &vec![5; samples]), 9, 0);
            due(&fields(1, plan as u64, size, &vec![0; samples]), 9, 0);
        }
        for sample in 0..samples {
            for value in [0, 65_537, 65_538, 98_304, 131_070, 131_071] {
                let mut values = vec![5; samples];
                values[sample] = value;
                let message = fields(1, plan as u64, 3, &values);
                due(&message, 10, sample);
                values[samples - 1] = 0;
                due(&fields(1, plan as u64, 3, &values), 10, sample);
                for padded in padded(plan, &message) {
                    due(&padded, 10, sample);
                }
            }
        }
        for padded in padded(plan, &good) {
            due(&padded, 11, 0);
        }
    }
}

/// A message with each of its padding bits set alone, then all.
fn padded(plan: usize, message: &[u8]) -> Vec<Vec<u8>> {
    let bits = 8 * length(plan) - 23 - 17 * SAMPLES[plan];
    let masks = (0..bits).map(|bit| 1u8 << bit).chain((bits > 0).then(|| ((1u16 << bits) - 1) as u8));
    masks
        .map(|mask| {
            let mut message = message.to_vec();
            *message.last_mut().unwrap() |= mask;
            message
        })
        .collect()
}

/// Home lists, buffers and sizes: 2 to 5 and 12 of the second entry.
pub fn of_reconciling(tally: &mut Tally) {
    for plan in 0..16 {
        let samples = SAMPLES[plan];
        let room = vec![0x44; 4 * samples + 12];
        let empty = fields(1, plan as u64, 0, &vec![1; samples]);
        let mut due = |message: &[u8], home: &[u8], theirs: usize, ours: usize, number: u8, place: u32| {
            let (answer, _, _) = tally.reconcile(message, home, &room[..theirs], &room[..ours]);
            let holds = (answer.number, answer.place) == (number, place);
            tally.check(holds, || format!("message {message:02x?}, home of {} bytes, buffers of {theirs} and {ours}: {answer:?}, due {number} at {place}", home.len()));
        };
        let enough = 4 * samples;
        for (keys, number, place) in [
            ((0..16_385).collect::<Vec<u32>>(), 2, 0),
            (vec![70_000; 17_000], 2, 0),
            (vec![65_473], 3, 0),
            (vec![1, 65_539], 3, 1),
            (vec![5, 70_000, 3], 3, 1),
            (vec![5, 4, 70_000], 4, 1),
            (vec![7, 7], 4, 1),
        ] {
            due(&empty, &bytes_of(&keys), enough, enough, number, place);
            due(&empty, &bytes_of(&keys), 0, 0, number, place);
        }
        // Lengths that are no multiple of 4 come before all else, the lowest position first.
        for message in [&empty[..], &[], &[0x20]] {
            for odd in 1..4 {
                due(message, &vec![0xff; odd], 1, 1, 5, 1);
                due(message, &vec![0xff; 65_536 + odd], enough, enough, 5, 1);
                due(message, &[], odd, 1, 5, 2);
                due(message, &[], enough + odd, 0, 5, 2);
                due(message, &[], 0, odd, 5, 3);
                due(message, &[0xff; 4], enough, enough + odd, 5, 3);
            }
        }
        // Sizes out of reach: the buffers come first.
        let far = fields(1, plan as u64, samples as u64 + 1, &vec![1; samples]);
        for message in [&empty, &far] {
            for (theirs, ours) in (0..=samples + 3).flat_map(|theirs| [0, samples - 1, samples, samples + 1].map(|ours| (theirs, ours))) {
                let (number, place) = match (theirs < samples, ours < samples) {
                    (true, _) => (5, 0),
                    (_, true) => (5, 1),
                    _ => (if message == &far { 12 } else { 0 }, 0),
                };
                due(message, &[], 4 * theirs, 4 * ours, number, place);
            }
        }
        let home: Vec<u32> = (100..100 + 2 * samples as u32 + 2).collect();
        let count = home.len() as u64;
        for size in [0, 1, count - samples as u64 - 1, count + samples as u64 + 1, 16_384] {
            due(&fields(1, plan as u64, size, &vec![1; samples]), &bytes_of(&home), enough, enough, 12, 0);
        }
        // At the very bound, values of sets: home without its first keys, and home with strangers.
        let fewer = DOCUMENT.values(&home[samples..], samples);
        due(&fields(1, plan as u64, count - samples as u64, &fewer), &bytes_of(&home), enough, enough, 0, 0);
        let more: Vec<u32> = (0..samples as u32).chain(home.iter().copied()).collect();
        due(&fields(1, plan as u64, count + samples as u64, &DOCUMENT.values(&more, samples)), &bytes_of(&home), enough, enough, 0, 0);
    }
}
