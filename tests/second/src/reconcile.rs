//! Reconciling a well-formed sketch with a home list, with its refusals in their order.

use crate::difference::{Difference, Question};
use crate::refusal::{refuse, refuse_at, Refusal};
use crate::setting::DOCUMENT;
use crate::sketch::{check_list, Sketch, SAMPLES};
use crate::{fraction, search};

/// Up to so many pairs the answer comes by trying them.
const LITTLE_WORK: f64 = 500.0;

/// `theirs` and `ours` are the entries that the two buffers have.
pub fn reconcile(sketch: &Sketch, home: &[u32], theirs: usize, ours: usize) -> Result<Difference, Refusal> {
    check_list(home)?;
    let samples = SAMPLES[sketch.plan];
    for (place, room) in [theirs, ours].into_iter().enumerate() {
        if room < samples {
            return refuse_at(5, place);
        }
    }
    let gap = sketch.size as i64 - home.len() as i64;
    if gap < -(samples as i64) || gap > samples as i64 {
        return refuse(12);
    }
    let home_values = DOCUMENT.values(home, samples);
    let question = Question { setting: DOCUMENT, home, home_values: &home_values, size: sketch.size, values: &sketch.values };
    match difference(&question) {
        Some(answer) => Ok(answer),
        None => refuse(13),
    }
}

fn difference(question: &Question) -> Option<Difference> {
    if search::work(question) > LITTLE_WORK {
        return fraction::difference(question);
    }
    let mut all = search::differences(question);
    assert!(all.len() <= 1, "two differences of one sketch and one home: {question:?} {all:?}");
    all.pop()
}

#[cfg(test)]
mod tests {
    use super::*;
    use crate::random::Random;

    fn answer(home: &[u32], size: usize, plan: usize, values: &[u64]) -> Result<(Vec<u32>, Vec<u32>), u8> {
        let sketch = Sketch { plan, size, values: values.to_vec() };
        reconcile(&sketch, home, 64, 64).map(|d| (d.theirs, d.ours)).map_err(|r| r.number)
    }

    #[test]
    fn cases_of_the_document() {
        assert_eq!(answer(&[1], 1, 1, &[65_533, 65_532]), Ok((vec![3], vec![1])));
        assert_eq!(answer(&[1], 1, 0, &[65_533]), Err(13));
        assert_eq!(answer(&[], 1, 0, &[64]), Ok((vec![65_472], vec![])));
        assert_eq!(answer(&[], 1, 0, &[63]), Err(13));
        assert_eq!(answer(&[], 2, 1, &[4, 9]), Err(13));
        assert_eq!(answer(&[1], 2, 0, &[4]), Err(13));
        assert_eq!(answer(&[1], 0, 0, &[1]), Ok((vec![], vec![1])));
        assert_eq!(answer(&[1], 0, 0, &[2]), Err(13));
        assert_eq!(answer(&[], 2, 0, &[1]), Err(12));
        assert_eq!(answer(&[1, 2, 3], 2, 0, &[1]), Err(13));
        assert_eq!(answer(&[1, 2, 3], 2, 0, &DOCUMENT.values(&[1, 3], 1)), Ok((vec![], vec![2])));
        assert_eq!(answer(&[], 0, 1, &[1, 2]), Err(13));
        assert_eq!(answer(&[1, 5], 2, 0, &[12]), Ok((vec![], vec![])));
    }

    #[test]
    fn order_of_refusals() {
        let sketch = Sketch { plan: 1, size: 9, values: vec![1, 1] };
        let refused = |home: &[u32], theirs, ours| reconcile(&sketch, home, theirs, ours).map_err(|r| (r.number, r.place)).unwrap_err();
        assert_eq!(refused(&vec![70_000; 16_385], 0, 0), (2, 0));
        assert_eq!(refused(&[1, 70_000], 0, 0), (3, 1));
        assert_eq!(refused(&[2, 1], 0, 0), (4, 1));
        assert_eq!(refused(&[], 1, 1), (5, 0));
        assert_eq!(refused(&[], 2, 1), (5, 1));
        assert_eq!(refused(&[], 2, 2), (12, 0));
    }

    /// The two ways on the document's own numbers, where trying is still bearable.
    #[test]
    fn both_ways_agree() {
        let mut random = Random::new(5);
        for round in 0..3_000 {
            let samples = 1 + random.below(4) as usize;
            let some = |random: &mut Random| {
                let mut keys: Vec<u32> = (0..random.below(7)).map(|_| random.below(65_473) as u32 * random.below(2) as u32 + random.below(8) as u32).collect();
                keys.retain(|&k| k <= 65_472);
                keys.sort();
                keys.dedup();
                keys
            };
            let (dome, home) = (some(&mut random), some(&mut random));
            let mut values = DOCUMENT.values(&dome, samples);
            if round % 4 == 0 {
                values[random.below(samples as u64) as usize] = 1 + random.below(65_536);
            }
            let home_values = DOCUMENT.values(&home, samples);
            let question = Question { setting: DOCUMENT, home: &home, home_values: &home_values, size: dome.len(), values: &values };
            if question.gap().unsigned_abs() as usize <= samples && search::work(&question) < 100_000.0 {
                let all = search::differences(&question);
                assert!(all.len() <= 1);
                assert_eq!(fraction::difference(&question), all.first().cloned(), "{question:?}");
            }
        }
    }
}
