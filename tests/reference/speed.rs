//! How long the judge takes over large models, on a sheet where each state stands with itself. The first time is that of opening
//! the sheet and pairing alone.

use crate::library::{judge_counter, judge_merge, judge_pile, judge_table, Answer, Memory, Sets, Step};
use std::time::{Duration, Instant};

fn timed(judge: &dyn Fn(&mut Memory) -> Answer, memory: &mut Memory) -> (Answer, Duration) {
    let begin = Instant::now();
    let answer = judge(memory);
    (answer, begin.elapsed())
}

fn row(name: &str, judge: &dyn Fn(&mut Memory) -> Answer) {
    let mut memory = Memory::largest();
    let marks = std::mem::take(&mut memory.marks);
    let (refused, before) = timed(judge, &mut memory);
    assert_eq!((refused.kind, refused.number), (3, 22));
    memory.marks = marks;
    let (answer, all) = timed(judge, &mut memory);
    println!("{name}: opened and paired {before:?}, judged {:?}, answer {} {}", all.saturating_sub(before), answer.kind, answer.number);
}

/// A table of so many terms: a ring of steps under action 1, and one step to the ended process.
fn ring(terms: usize) -> (Vec<u16>, Vec<Step>) {
    let mut ends = vec![0];
    let mut steps = Vec::new();
    for n in 1..=terms {
        steps.push(Step { action: 1, target: if n == terms { 1 } else { n as u16 + 1 } });
        steps.push(Step { action: 2, target: 0 });
        ends.push(steps.len() as u16);
    }
    (ends, steps)
}

pub fn run() {
    let none = Sets::default();
    let takes = Sets { blocked: 0, hidden: 1 << 1 };
    let both = Sets { blocked: 0, hidden: 1 << 1 | 1 << 2 };
    for cap in [511, 1_023, 2_047, 4_095] {
        row(&format!("counter of {} states", cap + 1), &|m| judge_counter(cap, none, m));
    }
    for cap in [511, 1_023, 2_047, 4_095] {
        row(&format!("counter of {} states, taking hidden", cap + 1), &|m| judge_counter(cap, takes, m));
    }
    for cap in [511, 1_023, 2_047, 4_095] {
        row(&format!("counter of {} states, both hidden", cap + 1), &|m| judge_counter(cap, both, m));
    }
    for cap in [15, 31, 63] {
        row(&format!("merge of two counters of {} states", cap + 1), &|m| judge_merge(cap, cap, none, m));
    }
    for terms in [1_023, 2_047, 4_095] {
        let (ends, steps) = ring(terms);
        row(&format!("table of {} states", terms + 1), &|m| judge_table(&ends, &steps, terms, steps.len(), 1, m));
    }
    for cap in [7, 11, 15] {
        let inner = Sets { blocked: 1 << 1, hidden: 1 << 3 };
        let outer = Sets { blocked: 1 << 63, hidden: 1 << 62 };
        row(&format!("pile of six over three counters of {} states", cap + 1), &|m| judge_pile(cap, inner, outer, m));
    }
}
