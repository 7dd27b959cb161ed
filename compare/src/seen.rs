//! How often each case of an answer came up.

use std::collections::BTreeMap;
use std::fmt::Debug;

/// Each case is to come up at least so many times.
const LEAST: u32 = 50;

/// A case of an answer: its name, and whether an answer has it.
pub type Case<A> = (&'static str, fn(&A) -> bool);

/// The cases that an answer has, and how often each came up.
pub struct Seen<T>(BTreeMap<T, u32>);

impl<T: Copy + Debug + Ord> Seen<T> {
    /// These cases, none of which has come up yet.
    pub fn new(cases: impl IntoIterator<Item = T>) -> Seen<T> {
        Seen(cases.into_iter().map(|case| (case, 0)).collect())
    }

    /// Counts a case, which must be one of them.
    pub fn count(&mut self, case: T) {
        let times = self.0.get_mut(&case);
        *times.unwrap_or_else(|| panic!("{case:?} is no case")) += 1;
    }

    /// Prints how often each came up, and fails where one came up too seldom.
    pub fn enough(&self, name: &str) {
        println!("{name}: came up {:?}", self.0);
        for (case, times) in &self.0 {
            assert!(*times >= LEAST, "{name}: {case:?} came up {times} times");
        }
    }
}

impl Seen<&'static str> {
    /// The names of these cases, none of which has come up yet.
    pub fn of<A>(cases: &[Case<A>]) -> Seen<&'static str> {
        Seen::new(cases.iter().map(|(name, _)| *name))
    }

    /// Counts every one of these cases that an answer has.
    pub fn look<A>(&mut self, cases: &[Case<A>], answer: &A) {
        let had = cases.iter().filter(|(_, has)| has(answer));
        had.for_each(|(name, _)| self.count(name));
    }
}
