//! Hands the same inputs, made by chance from a seed, to the proved code and to the second comparer, and compares all that they
//! answer and leave behind. See README.md.

mod cases;
mod comparer;
mod describing;
mod inputs;
mod library;
mod speed;

use cases::{calling, files, models, program, Tally};
use inputs::Chance;

/// A kind of cases: its name, how many of it belong to one unit of the count, and the run of one case.
struct Kind {
    name: &'static str,
    each: usize,
    run: fn(&mut Chance, &mut Tally),
}

const KINDS: [Kind; 7] = [
    Kind { name: "files read", each: 40, run: files::read_case },
    Kind { name: "tables unfolded", each: 12, run: files::unfold_case },
    Kind { name: "rows that are no table", each: 10, run: models::table_case },
    Kind { name: "models asked", each: 10, run: models::ask_case },
    Kind { name: "lists of calls", each: 20, run: calling::calls_case },
    Kind { name: "files given to the program", each: 4, run: program::program_case },
    Kind { name: "models at the limits", each: 1, run: models::limit_case },
];

/// Refusals of files, of unfolding, of text and of calls: each must be met.
const REFUSALS: [u8; 22] = [1, 2, 3, 4, 5, 6, 7, 8, 9, 10, 11, 12, 14, 15, 21, 22, 23, 24, 31, 32, 33, 34];

fn main() {
    let words: Vec<String> = std::env::args().skip(1).collect();
    if words.first().is_some_and(|word| word == "speed") {
        return speed::run();
    }
    let number = |at: usize| words.get(at).and_then(|word| word.parse::<u64>().ok());
    let (Some(seed), Some(count)) = (number(0), number(1)) else {
        eprintln!("runner SEED COUNT [KIND [CASE]] | runner speed");
        std::process::exit(2);
    };
    println!("seed {seed}, count {count}");
    let (one_kind, one_case) = (number(2), number(3));
    let mut tally = Tally::default();
    for (index, kind) in KINDS.iter().enumerate() {
        if one_kind.is_some_and(|wanted| wanted != index as u64) {
            continue;
        }
        let cases = count * kind.each as u64;
        for case in 0..cases {
            if one_case.is_some_and(|wanted| wanted != case) {
                continue;
            }
            tally.place = format!("seed {seed}, count {count}, kind {index} ({}), case {case}", kind.name);
            (kind.run)(&mut chance_of(seed, index as u64, case), &mut tally);
        }
        println!("{cases} {} agreed", kind.name);
    }
    tally.print();
    if one_kind.is_none() {
        tally.demand(&REFUSALS);
    }
    println!("all agreed");
}

/// The numbers of one case, so that a case can be run alone.
fn chance_of(seed: u64, kind: u64, case: u64) -> Chance {
    let mut chance = Chance::new(seed ^ kind.rotate_left(48) ^ case.rotate_left(24));
    for _ in 0..3 {
        chance.next();
    }
    Chance::new(chance.next())
}
