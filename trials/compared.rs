//! What was compared, and how often. A disagreement ends the run and prints the case in full.

use std::collections::BTreeMap;
use std::fmt::Debug;

#[derive(Default)]
pub struct Compared {
    times: BTreeMap<String, u64>,
    /// the cases among them in which a tempting other answer is wrong
    tempting: BTreeMap<String, u64>,
}

impl Compared {
    /// Both answers of an entry, and the case that they are for.
    pub fn same<T: PartialEq + Debug>(&mut self, entry: &str, proved: T, model: T, case: impl FnOnce() -> String) {
        once_more(&mut self.times, entry);
        if proved != model {
            let before: u64 = self.times.values().sum();
            eprintln!("trials: {entry} disagrees, after {before} comparisons\ncase:   {}\nproved: {proved:?}\nmodel:  {model:?}", case());
            std::process::exit(1);
        }
    }

    /// A case in which what this says would tempt to another answer.
    pub fn tempts(&mut self, case: &str) {
        once_more(&mut self.tempting, case);
    }

    pub fn report(&self) {
        for (entry, times) in self.times.iter().chain(&self.tempting) {
            println!("{times:>10}  {entry}");
        }
        println!("trials: {} comparisons, all agree", self.times.values().sum::<u64>());
    }
}

fn once_more(times: &mut BTreeMap<String, u64>, what: &str) {
    match times.get_mut(what) {
        Some(times) => *times += 1,
        None => drop(times.insert(what.to_string(), 1)),
    }
}
