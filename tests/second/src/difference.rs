//! What a difference is: document 01's definition, tested clause by clause. It decides over every method.

use crate::setting::Setting;

/// A question: whom home is compared with. The home list is ascending, values are not 0.
#[derive(Clone, Copy, Debug)]
pub struct Question<'a> {
    pub setting: Setting,
    pub home: &'a [u32],
    /// The value of home at each point, so that it is made once.
    pub home_values: &'a [u64],
    /// Size and values of the sketch.
    pub size: usize,
    pub values: &'a [u64],
}

#[derive(Clone, Debug, PartialEq, Eq)]
pub struct Difference {
    pub theirs: Vec<u32>,
    pub ours: Vec<u32>,
}

impl Question<'_> {
    pub fn samples(&self) -> usize {
        self.values.len()
    }

    /// The signed number d.
    pub fn gap(&self) -> i64 {
        self.size as i64 - self.home.len() as i64
    }

    pub fn at_home(&self, key: u32) -> bool {
        self.home.binary_search(&key).is_ok()
    }

    pub fn is_answered_by(&self, answer: &Difference) -> bool {
        let (theirs, ours) = (&answer.theirs, &answer.ours);
        let legal = |keys: &[u32]| keys.windows(2).all(|w| w[0] < w[1]) && keys.iter().all(|&k| self.setting.is_key(u64::from(k)));
        legal(theirs)
            && legal(ours)
            && !theirs.iter().any(|&k| self.at_home(k))
            && ours.iter().all(|&k| self.at_home(k))
            && theirs.len() as i64 - ours.len() as i64 == self.gap()
            && theirs.len() + ours.len() <= self.samples()
            && (1..=self.samples()).all(|i| self.holds_at(i, theirs, ours))
    }

    /// The equation at point i.
    fn holds_at(&self, i: usize, theirs: &[u32], ours: &[u32]) -> bool {
        let (setting, field, e) = (self.setting, self.setting.field, self.setting.point(i));
        field.mul(setting.value(e, theirs), self.home_values[i - 1]) == field.mul(self.values[i - 1], setting.value(e, ours))
    }
}
