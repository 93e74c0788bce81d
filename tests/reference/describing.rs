//! Models described by chance, and the reference's model of a description.

use crate::comparer::models::{Blocked, Communication, Counter, Hidden, Listed, Merge, Model, Ports, TableModel};
use crate::comparer::reading::read;
use crate::comparer::unfolding::{unfold, Unfolded, PROGRAM_ROOM};
use crate::inputs::files::{associative_lines, some_set, valid_tables, Size};
use crate::inputs::piles::{related_shapes, Comm, Shape};
use crate::inputs::Chance;
use crate::library::{Description, JoinLine, Joint, Leaf, Rows, Sets, Span, Step};

/// Few actions, so that models meet. Ports join 1 with 2, 4 with 5, 58 with 59.
const ACTIONS: [u8; 8] = [1, 2, 3, 4, 5, 58, 59, 63];

/// How many states a model may have.
#[derive(Clone, Copy, PartialEq, Eq, Debug)]
pub enum Scale {
    Tiny,
    Any,
}

pub fn some_sets(chance: &mut Chance) -> Sets {
    let blocked = if chance.one_in(3) { some_set(chance, &ACTIONS) & !(1 << 3) } else { 0 };
    let hidden = if chance.one_in(2) { some_set(chance, &ACTIONS) } else { 0 };
    // Bit 0 is handed over now and then: making a set drops it.
    Sets { blocked: blocked | chance.below(2) as u64, hidden: hidden | chance.below(2) as u64 }
}

fn some_counter(chance: &mut Chance, scale: Scale) -> Leaf {
    let cap = match scale {
        Scale::Tiny => chance.below(4),
        Scale::Any => match chance.below(12) {
            0 => chance.pick(&[4_094, 4_095, 4_096, 65_535, 65_536, usize::MAX]),
            1 => chance.pick(&[62, 63, 64, 65]),
            _ => chance.below(20),
        },
    };
    let rare = if scale == Scale::Tiny { 200 } else { 30 };
    let mut action = || if chance.one_in(rare) { chance.pick(&[0, 64, 255]) } else { chance.pick(&ACTIONS) };
    let (take, give) = (action(), action());
    Leaf { is_table: false, take, give, cap, sets: some_sets(chance), ..Leaf::default() }
}

/// A table unfolded from a small file, put behind what stands in the rows.
fn some_table(chance: &mut Chance, rows: &mut Rows, scale: Scale) -> Option<Leaf> {
    let size = if scale == Scale::Any && chance.one_in(6) { Size::Middle } else { Size::Small };
    let file = valid_tables(chance, size);
    let most = if scale == Scale::Tiny { 12 } else { 200 };
    let unfolded = unfold(&file.lines, &file.equations, &file.terms, file.start, most, 600, most + 1).ok()?;
    Some(Leaf { sets: some_sets(chance), ..put_table(rows, &unfolded) })
}

fn put_table(rows: &mut Rows, unfolded: &Unfolded) -> Leaf {
    let (from_end, from_step) = (rows.ends.len(), rows.steps.len());
    let mut end = 0;
    for row in &unfolded.rows {
        end += row.len() as u16;
        rows.ends.push(end);
        rows.steps.extend(row.iter().map(|&(action, target)| Step { action, target }));
    }
    Leaf {
        is_table: true,
        ends: Span { from: from_end, to: rows.ends.len() },
        steps: Span { from: from_step, to: rows.steps.len() },
        terms: unfolded.terms.len(),
        count: rows.steps.len() - from_step,
        start: unfolded.start,
        ..Leaf::default()
    }
}

pub fn some_leaf(chance: &mut Chance, rows: &mut Rows, scale: Scale) -> Leaf {
    if chance.one_in(2) {
        if let Some(leaf) = some_table(chance, rows, scale) {
            return leaf;
        }
    }
    some_counter(chance, scale)
}

fn some_joint(chance: &mut Chance, rows: &mut Rows) -> Joint {
    let from = rows.lines.len();
    if chance.one_in(4) {
        // Lines by chance: most of them break a rule, and then join nothing.
        for _ in 0..chance.pick(&[1, 2, 3, 33]) {
            let mut action = || chance.pick(&[0, 1, 2, 3, 4, 5, 58, 59, 63, 64]);
            rows.lines.push(JoinLine { a: action(), b: action(), joint: action() });
        }
    } else {
        rows.lines.extend(associative_lines(chance, &ACTIONS).iter().map(|&(a, b, joint)| JoinLine { a, b, joint }));
    }
    // Now and then the part passes the end of the row.
    let to = rows.lines.len() + if chance.one_in(8) { chance.below(3) } else { 0 };
    Joint { by_lines: chance.one_in(2), lines: Span { from, to }, sets: some_sets(chance) }
}

pub fn some_description(chance: &mut Chance, rows: &mut Rows, scale: Scale) -> Description {
    Description {
        shape: chance.pick(&[0, 0, 1, 1, 1, 2, 3]),
        first: some_leaf(chance, rows, scale),
        second: some_leaf(chance, rows, scale),
        third: some_leaf(chance, rows, scale),
        inner: some_joint(chance, rows),
        outer: some_joint(chance, rows),
    }
}

/// Two models that are near each other, so that many of them match, where both can be described.
pub fn related(chance: &mut Chance, rows: &mut Rows) -> Option<(Description, Description)> {
    let (one, other) = related_shapes(chance);
    Some((description_of(&one, rows)?, description_of(&other, rows)?))
}

/// The sets over a shape, and what stands beneath them.
fn sets_of(shape: &Shape) -> (&Shape, Sets) {
    let (shape, hidden) = if let Shape::Hidden(beneath, set) = shape { (&**beneath, *set) } else { (shape, 0) };
    let (shape, blocked) = if let Shape::Blocked(beneath, set) = shape { (&**beneath, *set) } else { (shape, 0) };
    (shape, Sets { blocked, hidden })
}

fn leaf_of(shape: &Shape, rows: &mut Rows) -> Option<Leaf> {
    let (shape, sets) = sets_of(shape);
    let leaf = match shape {
        &Shape::Counter { cap, take, give } => Leaf { cap, take, give, ..Leaf::default() },
        Shape::File(bytes) => {
            let file = read(bytes, &PROGRAM_ROOM).ok()?;
            let unfolded = unfold(&file.lines, &file.equations, &file.terms, file.start, 60, 600, 61).ok()?;
            put_table(rows, &unfolded)
        }
        _ => return None,
    };
    Some(Leaf { sets, ..leaf })
}

fn joint_of(comm: &Comm, sets: Sets, rows: &mut Rows) -> Joint {
    let from = rows.lines.len();
    if let Comm::Lines(lines) = comm {
        rows.lines.extend(lines.iter().map(|&(a, b, joint)| JoinLine { a, b, joint }));
    }
    Joint { by_lines: matches!(comm, Comm::Lines(_)), lines: Span { from, to: rows.lines.len() }, sets }
}

/// The description of a shape of at most three leaves with sets as a description has them.
fn description_of(shape: &Shape, rows: &mut Rows) -> Option<Description> {
    if let Some(first) = leaf_of(shape, rows) {
        return Some(Description { shape: 0, first, ..Description::default() });
    }
    let (Shape::Merged(left, right, comm), sets) = sets_of(shape) else { return None };
    let joint = joint_of(comm, sets, rows);
    match (leaf_of(left, rows), leaf_of(right, rows)) {
        (Some(first), Some(second)) => {
            Some(Description { shape: 1, first, second, inner: joint, ..Description::default() })
        }
        (None, Some(third)) => pile_of(left, third, joint, 2, rows),
        (Some(third), None) => pile_of(right, third, joint, 3, rows),
        (None, None) => None,
    }
}

fn pile_of(double: &Shape, third: Leaf, outer: Joint, shape: u8, rows: &mut Rows) -> Option<Description> {
    let double = description_of(double, rows)?;
    (double.shape == 1).then_some(Description { shape, third, outer, ..double })
}

/// One change of a description.
pub fn altered(chance: &mut Chance, description: &Description) -> Description {
    let mut other = *description;
    match chance.below(6) {
        0 => other.first.cap = chance.below(4),
        1 => other.first.take = chance.pick(&ACTIONS),
        2 => other.first.sets = some_sets(chance),
        3 => other.inner.sets = some_sets(chance),
        4 => other.outer.sets = some_sets(chance),
        _ => other.inner.by_lines = !other.inner.by_lines,
    }
    other
}

fn part<T>(row: &[T], span: Span) -> &[T] {
    let to = span.to.min(row.len());
    &row[span.from.min(to)..to]
}

fn layer(model: Box<dyn Model>, sets: Sets) -> Box<dyn Model> {
    Box::new(Hidden::new(Blocked::new(model, sets.blocked), sets.hidden))
}

/// The table that a leaf speaks of. With fewer row ends or steps than it counts it is no table.
pub fn table(leaf: &Leaf, rows: &Rows) -> TableModel {
    let (ends, steps) = (part(&rows.ends, leaf.ends), part(&rows.steps, leaf.steps));
    if leaf.terms >= ends.len() || leaf.count > steps.len() {
        return TableModel::new(&[], &[], 0);
    }
    let steps: Vec<(u8, u16)> = steps[..leaf.count].iter().map(|step| (step.action, step.target)).collect();
    TableModel::new(&ends[..=leaf.terms], &steps, leaf.start)
}

fn leaf(leaf: &Leaf, rows: &Rows) -> Box<dyn Model> {
    if leaf.is_table {
        layer(Box::new(table(leaf, rows)), leaf.sets)
    } else {
        layer(Box::new(Counter::new(leaf.cap, leaf.take, leaf.give)), leaf.sets)
    }
}

fn communication(joint: &Joint, rows: &Rows) -> Box<dyn Communication> {
    if joint.by_lines {
        let lines: Vec<(u8, u8, u8)> = part(&rows.lines, joint.lines).iter().map(|l| (l.a, l.b, l.joint)).collect();
        Box::new(Listed::new(&lines))
    } else {
        Box::new(Ports)
    }
}

/// The reference's model of a description.
pub fn reference(d: &Description, rows: &Rows) -> Box<dyn Model> {
    let merged = |left, right, joint: &Joint| -> Box<dyn Model> {
        layer(Box::new(Merge::new(left, right, communication(joint, rows))), joint.sets)
    };
    let double = || merged(leaf(&d.first, rows), leaf(&d.second, rows), &d.inner);
    match d.shape {
        0 => leaf(&d.first, rows),
        1 => double(),
        2 => merged(double(), leaf(&d.third, rows), &d.outer),
        _ => merged(leaf(&d.third, rows), double(), &d.outer),
    }
}
