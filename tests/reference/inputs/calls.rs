//! Lists of calls on a sheet, and pairs to begin with.

use super::super::comparer::judging::Ask;
use super::super::comparer::models::Model;
use super::super::comparer::sheets::{Pairing, Sheet};
use super::Chance;

/// A call on a sheet. `exchanged` hands the two models over the wrong way round, so that their sizes are
/// mostly not the sheet's. The lengths are those of the marks and of the queue.
#[derive(Clone, Copy, Debug)]
pub enum Call {
    Pair(usize, usize),
    Unpair(usize, usize),
    Judge { exchanged: bool, marks: usize, queue: usize },
    Without { exchanged: bool, left: usize, right: usize, marks: usize, queue: usize },
    Reply { exchanged: bool, ask: Ask, marks: usize, queue: usize },
}

/// A state in range, or sometimes not.
fn state(chance: &mut Chance, size: usize) -> usize {
    if size > 0 && !chance.one_in(12) {
        return chance.below(size);
    }
    chance.pick(&[size, size + 1, 4_095, 4_096, 65_535, 65_536, usize::MAX])
}

/// A length of scratch: the larger size, more, or sometimes less.
fn length(chance: &mut Chance, size: usize) -> usize {
    match chance.below(30) {
        0 => size.saturating_sub(1),
        1 => 0,
        2..=15 => size,
        _ => size + chance.between(1, 9),
    }
}

/// A pair, mostly one of those that should stand.
fn pair(chance: &mut Chance, rows: usize, columns: usize, likely: &[(usize, usize)]) -> (usize, usize) {
    if !likely.is_empty() && !chance.one_in(3) {
        return chance.pick(likely);
    }
    (state(chance, rows), state(chance, columns))
}

/// Calls by chance. `likely` are the pairs that calls mostly name; all of them are paired first, in their
/// order, now and then but for a few.
pub fn some_calls<L: Model, R: Model>(
    chance: &mut Chance,
    left: &L,
    right: &R,
    likely: &[(usize, usize)],
    count: usize,
) -> Vec<Call> {
    let (rows, columns) = (left.states(), right.states());
    let (size, width) = (rows.max(columns), left.width().max(right.width()));
    let mut calls = Vec::new();
    let gaps = chance.one_in(2);
    for &(s, t) in likely {
        if !gaps || !chance.one_in(10) {
            calls.push(Call::Pair(s, t));
        }
    }
    for _ in 0..count {
        let (s, t) = pair(chance, rows, columns, likely);
        let exchanged = chance.one_in(15);
        let (marks, queue) = (length(chance, size), length(chance, size));
        calls.push(match chance.below(10) {
            0 | 1 => Call::Pair(s, t),
            2 => Call::Unpair(s, t),
            3 | 4 => Call::Judge { exchanged, marks, queue },
            5 | 6 => Call::Without { exchanged, left: s, right: t, marks, queue },
            _ => {
                let side = if chance.one_in(15) { chance.pick(&[2, 255, usize::MAX]) } else { chance.below(2) };
                let place = if chance.one_in(15) {
                    chance.pick(&[width, width + 1, 4_096, usize::MAX])
                } else {
                    chance.below(width.max(1))
                };
                Call::Reply { exchanged, ask: Ask { side, left: s, right: t, place }, marks, queue }
            }
        });
    }
    calls
}

/// The most pairs in which every step and every end is answered: all pairs, from which the judge's broken ones
/// are taken until none is left. The root may be broken. Where the start pair falls, the rest is left as it is.
/// Only for small models: no pairs are answered where there would be more than `most`.
pub fn largest_pairs<L: Model, R: Model>(left: &L, right: &R, most: usize) -> Vec<(usize, usize)> {
    let (rows, columns) = (left.states(), right.states());
    if rows * columns == 0 || rows * columns > most {
        return Vec::new();
    }
    let all = || (0..rows).flat_map(move |s| (0..columns).map(move |t| (s, t)));
    let mut sheet = Sheet::open(vec![0; (rows * columns + 7) / 8], left, right);
    for (s, t) in all() {
        sheet.pair(s, t).expect("a new pair");
    }
    let size = rows.max(columns);
    let (mut marks, mut queue) = (vec![0; size], vec![0; size]);
    loop {
        let verdict = sheet.judge(left, right, &mut marks, &mut queue).expect("the sheet's own models");
        match verdict.kind {
            2 | 3 => sheet.unpair(verdict.left, verdict.right).expect("a standing pair"),
            _ => break,
        }
    }
    all().filter(|&(s, t)| sheet.stands(s, t)).collect()
}
