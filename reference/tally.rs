//! Counts by subject and kind, with what must have been reached of each subject.

use crate::coverage::list;
use std::collections::BTreeMap;

#[derive(Default)]
pub struct Tally(BTreeMap<(&'static str, String), u64>);

impl Tally {
    pub fn add(&mut self, subject: &'static str, kind: impl Into<String>) {
        *self.0.entry((subject, kind.into())).or_default() += 1;
    }

    /// A line for each subject: those that must be reached, and others that were. Then what is missing of them.
    pub fn print(&self, wanted: &[(&'static str, Vec<String>)]) {
        let mut missing = Vec::new();
        for (subject, kinds) in wanted {
            let reached =
                self.0.range((*subject, String::new())..).take_while(|((other, _), _)| other == subject);
            let others = reached.map(|((_, kind), _)| kind).filter(|kind| !kinds.contains(kind));
            let cells: Vec<String> = kinds
                .iter()
                .chain(others)
                .map(|kind| format!("{kind} x {}", self.count(subject, kind)))
                .collect();
            println!("  {subject}: {}", list(&cells));
            let unreached = kinds.iter().filter(|kind| self.count(subject, kind) == 0);
            missing.extend(unreached.map(|kind| format!("{subject} {kind}")));
        }
        println!("  not reached: {}", list(&missing));
    }

    fn count(&self, subject: &'static str, kind: &str) -> u64 {
        self.0.get(&(subject, kind.into())).copied().unwrap_or(0)
    }
}

pub fn names(names: &[&str]) -> Vec<String> {
    names.iter().map(|&name| name.into()).collect()
}
