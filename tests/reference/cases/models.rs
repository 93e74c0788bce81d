//! Models asked their five questions.

use super::Tally;
use crate::comparer::models::Model;
use crate::describing::{reference, some_description, some_leaf, Scale};
use crate::inputs::Chance;
use crate::library::{self, Description, Leaf, Question, Rows, Span, Step, Told};

/// What the reference tells.
fn told(model: &dyn Model, question: Question) -> Told {
    let step = model.step(question.state, question.place);
    let (action, target) = step.unwrap_or((0, 0));
    Told {
        states: model.states(),
        start: model.start(),
        width: model.width(),
        ends: model.may_end(question.state),
        steps: step.is_some(),
        action,
        target,
    }
}

/// All states and places of a small model, some of a large one, and some out of range.
fn questions(chance: &mut Chance, model: &dyn Model) -> Vec<Question> {
    let (states, width) = (model.states(), model.width());
    let mut questions = Vec::new();
    if (states + 2) * (width + 2) <= 6_000 {
        for state in 0..states + 2 {
            questions.extend((0..width + 2).map(|place| Question { state, place }));
        }
    } else {
        for _ in 0..1_500 {
            questions.push(Question { state: chance.below(states + 2), place: chance.below(width + 2) });
        }
    }
    for _ in 0..20 {
        let odd = [0, 1, 4_095, 4_096, 65_535, 65_536, 1 << 32, usize::MAX - 1, usize::MAX];
        let pick = |chance: &mut Chance, below: usize| if chance.one_in(2) { chance.pick(&odd) } else { below };
        let (state, place) = (chance.below(states + 1), chance.below(width + 1));
        questions.push(Question { state: pick(chance, state), place: pick(chance, place) });
    }
    questions
}

fn compare(chance: &mut Chance, tally: &mut Tally, description: &Description, rows: &Rows) {
    let model = reference(description, rows);
    let questions = questions(chance, &*model);
    let answers = library::ask(description, rows, &questions);
    tally.met(match (model.states(), description.shape) {
        (0, _) => "a model was empty",
        (_, 0) => "a leaf was asked",
        (_, 1) => "two merged were asked",
        _ => "three merged were asked",
    });
    for (question, answer) in questions.iter().zip(answers) {
        tally.agree("what a model tells", answer, told(&*model, *question), &(question, description, rows));
    }
}

pub fn ask_case(chance: &mut Chance, tally: &mut Tally) {
    let mut rows = Rows::default();
    let scale = if chance.one_in(3) { Scale::Tiny } else { Scale::Any };
    let description = some_description(chance, &mut rows, scale);
    compare(chance, tally, &description, &rows);
}

/// Row ends and steps with a change or two, which most often are no table.
pub fn table_case(chance: &mut Chance, tally: &mut Tally) {
    let mut rows = Rows::default();
    let mut leaf = some_leaf(chance, &mut rows, Scale::Any);
    while !leaf.is_table {
        leaf = some_leaf(chance, &mut rows, Scale::Any);
    }
    for _ in 0..chance.between(0, 2) {
        spoil(chance, &mut rows, &mut leaf);
    }
    let description = Description { shape: 0, first: leaf, ..Description::default() };
    compare(chance, tally, &description, &rows);
}

/// A table of one term with so many steps.
fn wide_leaf(chance: &mut Chance, rows: &mut Rows, width: usize) -> Leaf {
    let (from_end, from_step) = (rows.ends.len(), rows.steps.len());
    rows.ends.extend([0, width as u16]);
    rows.steps.extend((0..width).map(|_| Step { action: chance.below(64) as u8, target: chance.below(2) as u16 }));
    Leaf {
        is_table: true,
        ends: Span { from: from_end, to: rows.ends.len() },
        steps: Span { from: from_step, to: rows.steps.len() },
        terms: 1,
        count: width,
        start: 1,
        ..Leaf::default()
    }
}

/// Models at the limits of places and of states: a wide table, two merged, and two counters merged.
pub fn limit_case(chance: &mut Chance, tally: &mut Tally) {
    let mut rows = Rows::default();
    let mut counter = |caps: &[usize]| Leaf { cap: chance.pick(caps), take: 1, give: 2, ..Leaf::default() };
    let few = counter(&[62, 63, 64]);
    let many = counter(&[62, 63, 64, 4_095, 0]);
    let description = match chance.below(3) {
        0 => {
            let width = chance.between(4_094, 4_098);
            Description { shape: 0, first: wide_leaf(chance, &mut rows, width), ..Description::default() }
        }
        1 => {
            let widths = (chance.between(61, 64), chance.between(61, 64));
            let first = wide_leaf(chance, &mut rows, widths.0);
            Description { shape: 1, first, second: wide_leaf(chance, &mut rows, widths.1), ..Description::default() }
        }
        _ => Description { shape: 1, first: few, second: many, ..Description::default() },
    };
    compare(chance, tally, &description, &rows);
}

fn spoil(chance: &mut Chance, rows: &mut Rows, leaf: &mut Leaf) {
    let some_end = chance.below(rows.ends.len());
    let some_step = chance.below(rows.steps.len().max(1));
    match chance.below(9) {
        0 => rows.ends[some_end] = chance.pick(&[0, 1, 2, 4_096, 65_535]),
        1 => rows.ends[some_end] = rows.ends[some_end].wrapping_add(1),
        2 => leaf.terms = chance.pick(&[0, leaf.terms.saturating_sub(1), leaf.terms + 1, 4_095, 4_096, usize::MAX]),
        3 => leaf.count = chance.pick(&[0, leaf.count.saturating_sub(1), leaf.count + 1, usize::MAX]),
        4 => leaf.start = chance.pick(&[0, leaf.terms, leaf.terms + 1, usize::MAX]),
        5 => leaf.ends = Span { from: leaf.ends.from, to: leaf.ends.to.saturating_sub(1) },
        6 => leaf.steps = Span { from: leaf.steps.from + 1, to: leaf.steps.to },
        7 => {
            if let Some(step) = rows.steps.get_mut(some_step) {
                step.action = chance.pick(&[0, 63, 64, 255]);
            }
        }
        _ => {
            if let Some(step) = rows.steps.get_mut(some_step) {
                let terms = leaf.terms.min(65_534) as u16;
                step.target = chance.pick(&[0, terms, terms + 1, 65_535]);
            }
        }
    }
    // Entries behind the table do not matter.
    if chance.one_in(3) {
        rows.ends.push(0);
        rows.steps.push(Step { action: 200, target: 60_000 });
    }
}
