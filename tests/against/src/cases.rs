//! Document 01's "Values to hold against it", each as it stands there, and its example beyond the bound.

use crate::tally::Tally;
use second::difference::{Difference, Question};
use second::entries::{bytes_of, keys_of, Answer};
use second::field::Field;
use second::setting::Setting;
use second::{fraction, message, search};

/// Cases 1 to 13 and 15, through the C entries.
pub fn through_the_entries(tally: &mut Tally) {
    written(tally, &[], "1000000001");
    written(tally, &[0], "1000030000");
    written(tally, &[1, 2], "1000040006");
    for (plan, sample, value) in [(0, 0, 64), (15, 63, 1)] {
        sampled(tally, plan, &[65_472], sample, value);
    }
    for plan in 0..16 {
        let (answer, _) = tally.sketch(plan, &bytes_of(&[65_473]), &[0; 139]);
        tally.check((answer.number, answer.place) == (3, 0), || format!("case 4: {answer:?}"));
    }
    sampled(tally, 0, &[255, 511], 0, 65_535);
    for (sample, value) in [8, 15, 24, 35].into_iter().enumerate() {
        sampled(tally, 3, &[1, 3], sample, value);
    }
    for (sample, value) in [65_533, 65_532].into_iter().enumerate() {
        sampled(tally, 1, &[3], sample, value);
    }
    found(tally, &[1], 1, 1, &[65_533, 65_532], &[3], &[1]);
    refused(tally, &[1], 1, 0, &[65_533], 13);
    found(tally, &[], 1, 0, &[64], &[65_472], &[]);
    refused(tally, &[], 1, 0, &[63], 13);
    refused(tally, &[], 2, 1, &[4, 9], 13);
    refused(tally, &[1], 2, 0, &[4], 13);
    found(tally, &[1], 0, 0, &[1], &[], &[1]);
    refused(tally, &[1], 0, 0, &[2], 13);
    refused(tally, &[], 2, 0, &[1], 12);
    refused(tally, &[1, 2, 3], 2, 0, &[1], 13);
    // The value of {1, 3} at point 1.
    found(tally, &[1, 2, 3], 2, 0, &[8], &[], &[2]);
    refused(tally, &[], 0, 1, &[1, 2], 13);
    // Beyond the bound: the dome holds {2, 3}, and nothing is said of it.
    sampled(tally, 0, &[2, 3], 0, 12);
    found(tally, &[1, 5], 2, 0, &[12], &[], &[]);
}

/// Case 14, by the second implementation alone.
pub fn modulo_97(tally: &mut Tally) {
    let setting = Setting { field: Field::new(97), most_points: 5 };
    let (dome, home) = ([1, 2, 9, 12, 33], [1, 2, 9, 10, 12, 28]);
    let (values, home_values) = (setting.values(&dome, 5), setting.values(&home, 5));
    tally.check(values == [58, 19, 89, 77, 4], || format!("case 14: {values:?}"));
    tally.check(home_values == [15, 54, 68, 77, 50], || format!("case 14: {home_values:?}"));
    let question = Question { setting, home: &home, home_values: &home_values, size: dome.len(), values: &values };
    let due = Difference { theirs: vec![33], ours: vec![10, 28] };
    let (by_fraction, by_search) = (fraction::difference(&question), search::differences(&question));
    tally.check(by_fraction.as_ref() == Some(&due), || format!("case 14: {by_fraction:?}"));
    tally.check(by_search == [due], || format!("case 14: {by_search:?}"));
}

fn written(tally: &mut Tally, keys: &[u32], hex: &str) {
    let (answer, buffer) = tally.sketch(0, &bytes_of(keys), &[0xee; 7]);
    let digits: String = buffer.iter().map(|byte| format!("{byte:02x}")).collect();
    let due = Answer { number: 0, place: 0, first: 5, second: 0 };
    tally.check(answer == due && digits == format!("{hex}eeee"), || format!("the message of {keys:?}: {answer:?}, {digits}"));
}

/// The value in the message of a list, sample from 0.
fn sampled(tally: &mut Tally, plan: u32, keys: &[u32], sample: usize, value: u64) {
    let (answer, buffer) = tally.sketch(plan, &bytes_of(keys), &[0; 139]);
    let sketch = message::read(&buffer[..usize::from(answer.first)]);
    let holds = sketch.map_or(false, |sketch| sketch.values[sample] == value && sketch.size == keys.len());
    tally.check(holds, || format!("value {sample} of {keys:?} at plan {plan} is not {value}: {answer:?}"));
}

fn outcome(tally: &mut Tally, home: &[u32], size: u64, plan: u64, values: &[u64]) -> (u8, Vec<u32>, Vec<u32>) {
    let made = message::fields(1, plan, size, values);
    let (answer, theirs, ours) = tally.reconcile(&made, &bytes_of(home), &[0xee; 12], &[0xee; 12]);
    let keys = |buffer: Vec<u8>, count: u16| keys_of(&buffer[..4 * usize::from(count)]);
    (answer.number, keys(theirs, answer.first), keys(ours, answer.second))
}

fn found(tally: &mut Tally, home: &[u32], size: u64, plan: u64, values: &[u64], theirs: &[u32], ours: &[u32]) {
    let given = outcome(tally, home, size, plan, values);
    tally.check(given == (0, theirs.to_vec(), ours.to_vec()), || format!("home {home:?}, size {size}, values {values:?}: {given:?}"));
}

fn refused(tally: &mut Tally, home: &[u32], size: u64, plan: u64, values: &[u64], number: u8) {
    let given = outcome(tally, home, size, plan, values);
    tally.check(given == (number, vec![], vec![]), || format!("home {home:?}, size {size}, values {values:?}: {given:?}, due {number}"));
}
