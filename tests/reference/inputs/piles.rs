//! Piles of models, and pairs of piles that often match.

use super::super::comparer::models::{
    Blocked, Communication, Counter, Hidden, Listed, Merge, Model, Ports, TableModel,
};
use super::super::comparer::reading::{read, Term};
use super::super::comparer::unfolding::{unfold, PROGRAM_ROOM, PROGRAM_STATES, PROGRAM_STEPS};
use super::super::comparer::writing::write;
use super::files::{associative_lines, some_set, valid_tables, Size};
use super::Chance;

/// How a model is piled up. Any numbers may stand here; those outside the limits give empty models.
#[derive(Clone, Debug)]
pub enum Shape {
    Counter { cap: usize, take: u8, give: u8 },
    /// The table of a model file; a file that is refused, or whose table is, is the empty model.
    File(Vec<u8>),
    Blocked(Box<Shape>, u64),
    Hidden(Box<Shape>, u64),
    Merged(Box<Shape>, Box<Shape>, Comm),
}

#[derive(Clone, Debug)]
pub enum Comm {
    Ports,
    Lines(Vec<(u8, u8, u8)>),
}

impl Comm {
    pub fn build(&self) -> Box<dyn Communication> {
        match self {
            Comm::Ports => Box::new(Ports),
            Comm::Lines(lines) => Box::new(Listed::new(lines)),
        }
    }
}

impl Shape {
    pub fn build(&self) -> Box<dyn Model> {
        match self {
            &Shape::Counter { cap, take, give } => Box::new(Counter::new(cap, take, give)),
            Shape::File(bytes) => Box::new(table_of(bytes)),
            Shape::Blocked(beneath, set) => Box::new(Blocked::new(beneath.build(), *set)),
            Shape::Hidden(beneath, set) => Box::new(Hidden::new(beneath.build(), *set)),
            Shape::Merged(left, right, comm) => Box::new(Merge::new(left.build(), right.build(), comm.build())),
        }
    }

    /// How many models stand one upon another.
    pub fn height(&self) -> usize {
        match self {
            Shape::Counter { .. } | Shape::File(_) => 1,
            Shape::Blocked(beneath, _) | Shape::Hidden(beneath, _) => 1 + beneath.height(),
            Shape::Merged(left, right, _) => 1 + left.height().max(right.height()),
        }
    }
}

/// The table of a file in the room that the program `unfold` has, or the empty model.
pub fn table_of(bytes: &[u8]) -> TableModel {
    let unfolded = read(bytes, &PROGRAM_ROOM).ok().and_then(|file| {
        let (states, steps) = (PROGRAM_STATES, PROGRAM_STEPS);
        unfold(&file.lines, &file.equations, &file.terms, file.start, states - 1, steps, states).ok()
    });
    match unfolded {
        Some(unfolded) => TableModel::of(&unfolded),
        None => TableModel::new(&[], &[], 0),
    }
}

/// The actions that piles use: those of three ports, so that they meet.
const ACTIONS: [u8; 9] = [1, 2, 3, 4, 5, 6, 7, 8, 9];

fn action(chance: &mut Chance) -> u8 {
    match chance.below(60) {
        0 => chance.pick(&[0, 63, 64, 255]),
        1..=4 => chance.between(1, 63) as u8,
        _ => chance.pick(&ACTIONS),
    }
}

fn set(chance: &mut Chance) -> u64 {
    match chance.below(6) {
        0 => chance.next(),
        1 => some_set(chance, &ACTIONS) | 1,
        _ => some_set(chance, &ACTIONS),
    }
}

pub fn some_comm(chance: &mut Chance) -> Comm {
    match chance.below(6) {
        0 | 1 => Comm::Ports,
        2 => Comm::Lines(Vec::new()),
        // Lines that may break a rule: then they join nothing.
        3 => {
            let count = chance.between(1, 4);
            Comm::Lines((0..count).map(|_| (action(chance), action(chance), action(chance))).collect())
        }
        _ => Comm::Lines(associative_lines(chance, &ACTIONS)),
    }
}

/// A model that stands on no other, with few states.
fn ground(chance: &mut Chance) -> Shape {
    if chance.one_in(3) {
        let mut tables = valid_tables(chance, Size::Small);
        tables.terms.truncate(6);
        tables.start = tables.start.min(tables.terms.len());
        return Shape::File(write(&tables));
    }
    let cap = match chance.below(40) {
        0 => chance.pick(&[63, 64, 4_094, 4_095, 4_096, usize::MAX]),
        1 => 0,
        2..=4 => chance.between(5, 12),
        _ => chance.between(1, 4),
    };
    Shape::Counter { cap, take: action(chance), give: action(chance) }
}

/// A pile of at most this height. Most have few states; some are at or over the limits.
pub fn some_shape(chance: &mut Chance, height: usize) -> Shape {
    if height <= 1 || chance.one_in(4) {
        return ground(chance);
    }
    match chance.below(4) {
        0 => Shape::Blocked(Box::new(some_shape(chance, height - 1)), set(chance)),
        1 => Shape::Hidden(Box::new(some_shape(chance, height - 1)), set(chance)),
        _ => {
            let left = some_shape(chance, height - 1);
            let lower = chance.between(1, 2).min(height - 1);
            let right = some_shape(chance, height - lower);
            Shape::Merged(Box::new(left), Box::new(right), some_comm(chance))
        }
    }
}

/// Two piles that are near each other, so that many of them match.
pub fn related_shapes(chance: &mut Chance) -> (Shape, Shape) {
    let height = chance.between(1, 3);
    let one = some_shape(chance, height);
    let boxed = || Box::new(one.clone());
    match chance.below(9) {
        // The same.
        0 => (one.clone(), one),
        // Merged the other way round.
        1 => {
            let (other, comm) = (ground(chance), some_comm(chance));
            let there = Shape::Merged(boxed(), Box::new(other.clone()), comm.clone());
            (there, Shape::Merged(Box::new(other), boxed(), comm))
        }
        // Beside a model that does nothing and may end.
        2 => {
            let idle = Box::new(Shape::Counter { cap: 0, take: 1, give: 1 });
            (one.clone(), Shape::Merged(boxed(), idle, some_comm(chance)))
        }
        // Two sets one after the other, or both at once.
        3 => {
            let (first, second) = (set(chance), set(chance));
            let twice = Shape::Blocked(Box::new(Shape::Blocked(boxed(), first)), second);
            (twice, Shape::Blocked(boxed(), first | second))
        }
        4 => {
            let (first, second) = (set(chance), set(chance));
            let twice = Shape::Hidden(Box::new(Shape::Hidden(boxed(), first)), second);
            (twice, Shape::Hidden(boxed(), first | second))
        }
        // A silent step more behind an action.
        5 | 6 => silent_detour(chance),
        // A changed number somewhere, and two by chance.
        7 => (one.clone(), Shape::Blocked(boxed(), 1 << chance.between(1, 9))),
        _ => {
            let other = some_shape(chance, height);
            (one, other)
        }
    }
}

/// Two files: an action and then a term, and the same with a silent action between. Or the silent action first,
/// where only the root tells them apart.
fn silent_detour(chance: &mut Chance) -> (Shape, Shape) {
    let mut tables = valid_tables(chance, Size::Small);
    tables.terms.truncate(6);
    let mut add = |term: Term| -> u16 {
        let known = tables.terms.iter().position(|&other| other == term);
        let index = known.unwrap_or_else(|| {
            tables.terms.push(term);
            tables.terms.len() - 1
        });
        (index + 1) as u16
    };
    let first = add(Term::Action(chance.pick(&ACTIONS)));
    let silent = add(Term::Action(0));
    let rest = chance.between(1, usize::from(first)) as u16;
    let plain = add(Term::Sequence(first, rest));
    let later = add(Term::Sequence(silent, rest));
    let detour = add(Term::Sequence(first, later));
    let (one, other) = if chance.one_in(4) { (rest, later) } else { (plain, detour) };
    tables.start = usize::from(one);
    let here = write(&tables);
    tables.start = usize::from(other);
    (Shape::File(here), Shape::File(write(&tables)))
}
