//! One case of each kind, and what was met on the way.

pub mod calling;
pub mod files;
pub mod models;
pub mod program;

use std::collections::BTreeMap;
use std::fmt::Debug;

/// Where the run is, and how often each refusal and each other answer was met.
#[derive(Default)]
pub struct Tally {
    pub place: String,
    refusals: BTreeMap<u8, u64>,
    others: BTreeMap<&'static str, u64>,
}

impl Tally {
    pub fn refused(&mut self, number: u8) {
        *self.refusals.entry(number).or_default() += 1;
    }

    pub fn met(&mut self, what: &'static str) {
        *self.others.entry(what).or_default() += 1;
    }

    /// Both comparers must answer the same. Else the case is printed, and the run ends.
    pub fn agree<T: PartialEq + Debug>(&self, what: &str, library: T, reference: T, case: &dyn Debug) {
        if library != reference {
            self.differ(what, &library, &reference, case);
        }
    }

    pub fn differ(&self, what: &str, library: &dyn Debug, reference: &dyn Debug, case: &dyn Debug) -> ! {
        println!("DIFFERENT: {what}");
        println!("at {}", self.place);
        println!("the case: {case:?}");
        println!("the library:   {library:?}");
        println!("the reference: {reference:?}");
        std::process::exit(1)
    }

    pub fn print(&self) {
        let refusals: Vec<String> = self.refusals.iter().map(|(number, times)| format!("{number}: {times}")).collect();
        println!("refusals met  {}", refusals.join(", "));
        for (what, times) in &self.others {
            println!("{times} times {what}");
        }
    }

    pub fn demand(&self, numbers: &[u8]) {
        for number in numbers {
            if !self.refusals.contains_key(number) {
                println!("refusal {number} was never met");
                std::process::exit(1);
            }
        }
    }
}

/// A file's bytes shown as text.
#[derive(PartialEq)]
pub struct Shown<'a>(pub &'a [u8]);

impl Debug for Shown<'_> {
    fn fmt(&self, out: &mut std::fmt::Formatter) -> std::fmt::Result {
        write!(out, "\"{}\"", self.0.escape_ascii())
    }
}
