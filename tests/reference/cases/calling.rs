//! Lists of calls on a sheet, refused ones too. After each call the answer, the bytes, the marks and the queue are compared.

use super::Tally;
use crate::comparer::judging::{judge, reply, reply_is_right, Ask, Reply, Verdict};
use crate::comparer::models::{Merge, Model, Ports};
use crate::comparer::sheets::{Beside, Flipped, Sheet};
use crate::describing::{altered, reference, related, some_description, Scale};
use crate::inputs::calls::largest_pairs;
use crate::inputs::Chance;
use crate::library::{self, Answer, Call, Description, Models, Rows};

type Dyn = Box<dyn Model>;

struct Lent {
    bytes: Vec<u8>,
    marks: Vec<u8>,
    queue: Vec<u16>,
}

/// What a call answered, and what then stood in the lent memory.
struct After {
    answer: Answer,
    /// The reply was to this question, where one was given.
    asked: Option<Ask>,
    bytes: Vec<u8>,
    marks: Vec<u8>,
    queue: Vec<u16>,
}

fn refused(number: u8) -> Answer {
    Answer { kind: 3, number, ..Answer::default() }
}

fn of_change(result: Result<(), u8>) -> Answer {
    result.map_or_else(refused, |()| Answer::default())
}

fn of_verdict(result: Result<Verdict, u8>) -> Answer {
    result.map_or_else(refused, |v| Answer {
        kind: 1,
        number: v.kind,
        left: v.left,
        right: v.right,
        side: v.side,
        place: v.place,
    })
}

fn of_reply(result: Result<Reply, u8>) -> Answer {
    match result {
        Ok(Reply::Stays) => Answer { kind: 2, number: 0, ..Answer::default() },
        Ok(Reply::Moves { m, place }) => Answer { kind: 2, number: 1, left: m, place, ..Answer::default() },
        Ok(Reply::Nothing) => Answer { kind: 2, number: 2, ..Answer::default() },
        Err(number) => refused(number),
    }
}

fn reply_of(answer: &Answer) -> Reply {
    match answer.number {
        0 => Reply::Stays,
        1 => Reply::Moves { m: answer.left, place: answer.place },
        _ => Reply::Nothing,
    }
}

/// The reference's answer to one call.
fn make(sheet: &mut Sheet<Vec<u8>>, l: &Dyn, r: &Dyn, call: &Call, marks: &mut [u8], queue: &mut [u16]) -> Answer {
    let (m, q) = (call.marks.min(marks.len()), call.queue.min(queue.len()));
    let (marks, queue) = (&mut marks[..m], &mut queue[..q]);
    let ask = ask_of(call);
    match call.kind {
        0 => of_change(sheet.pair(call.s, call.t)),
        1 => of_change(sheet.unpair(call.s, call.t)),
        2 => of_verdict(sheet.judge(l, r, marks, queue)),
        3 => of_verdict(sheet.without(l, r, call.s, call.t, marks, queue)),
        4 => of_reply(sheet.reply(l, r, ask, marks, queue)),
        5 => of_verdict(judge(l, r, &*sheet, marks, queue)),
        6 => of_reply(reply(l, r, &*sheet, ask, marks, queue)),
        7 => of_verdict(judge(r, l, &Flipped(&*sheet), marks, queue)),
        _ => of_verdict(judge(&Merge::new(l, l, Ports), &Merge::new(r, l, Ports), &Beside::new(&*sheet, l), marks, queue)),
    }
}

fn ask_of(call: &Call) -> Ask {
    Ask { side: call.side, left: call.s, right: call.t, place: call.place }
}

/// A state that is mostly in range.
fn some_state(chance: &mut Chance, states: usize) -> usize {
    match chance.below(20) {
        0 => states,
        1 => chance.pick(&[states + 1, 4_096, 65_536, usize::MAX]),
        _ => chance.below(states.max(1)),
    }
}

/// A length that mostly suffices.
fn some_length(chance: &mut Chance, larger: usize) -> usize {
    match chance.below(40) {
        0 => chance.below(larger + 1),
        1 => larger.saturating_sub(1),
        2..=9 => larger,
        _ => usize::MAX,
    }
}

/// A place that mostly holds a step.
fn some_place(chance: &mut Chance, model: &Dyn, state: usize) -> usize {
    let held: Vec<usize> = (0..model.width()).filter(|&place| model.step(state, place).is_some()).collect();
    match chance.below(20) {
        0 => usize::MAX,
        1 => model.width(),
        2 => chance.below(model.width() + 1),
        _ if held.is_empty() => 0,
        _ => chance.pick(&held),
    }
}

/// The pairs put in first: each state with itself, all, those that a sweep leaves standing, or some.
fn first_pairs(chance: &mut Chance, left: &Dyn, right: &Dyn) -> Vec<(usize, usize)> {
    let (n, m) = (left.states(), right.states());
    let all = (0..n).flat_map(|s| (0..m).map(move |t| (s, t)));
    match chance.below(6) {
        0 | 1 => (0..n.min(m)).map(|s| (s, s)).collect(),
        2 if n * m <= 150 => all.collect(),
        3 | 4 if n * m <= 150 => largest_pairs(left, right, 150),
        _ => all.filter(|_| chance.one_in(3)).take(60).collect(),
    }
}

fn some_calls(chance: &mut Chance, left: &Dyn, right: &Dyn) -> Vec<Call> {
    let (n, m) = (left.states(), right.states());
    let larger = n.max(m);
    let blank = Call {
        kind: 0,
        other_left: false,
        other_right: false,
        side: 0,
        s: 0,
        t: 0,
        place: 0,
        marks: usize::MAX,
        queue: usize::MAX,
    };
    let pairs = first_pairs(chance, left, right);
    let mut calls: Vec<Call> = pairs.iter().map(|&(s, t)| Call { s, t, ..blank }).collect();
    for _ in 0..chance.between(4, 24) {
        // Mostly a pair that was put in.
        let (s, t) = if !pairs.is_empty() && !chance.one_in(4) {
            chance.pick(&pairs)
        } else {
            (some_state(chance, n), some_state(chance, m))
        };
        let side = if chance.one_in(30) { chance.pick(&[2, 3, 256, usize::MAX]) } else { chance.below(2) };
        let place = some_place(chance, if side == 0 { left } else { right }, if side == 0 { s } else { t });
        calls.push(Call {
            kind: chance.pick(&[0, 1, 2, 2, 2, 3, 3, 3, 4, 4, 4, 4, 5, 6, 7, 8]),
            other_left: chance.one_in(12),
            other_right: chance.one_in(12),
            side,
            s,
            t,
            place,
            marks: some_length(chance, larger),
            queue: some_length(chance, larger),
        });
    }
    calls
}

/// Runs the reference, and notes what stands after each call.
fn run(models: [&Dyn; 4], calls: &[Call], lent: &Lent) -> Vec<After> {
    let mut sheet = Sheet::open(lent.bytes.clone(), models[0], models[1]);
    let (mut marks, mut queue) = (lent.marks.clone(), lent.queue.clone());
    calls
        .iter()
        .map(|call| {
            let (l, r) = chosen(models, call);
            let answer = make(&mut sheet, l, r, call, &mut marks, &mut queue);
            After {
                answer,
                asked: (answer.kind == 2).then(|| ask_of(call)),
                bytes: sheet.bytes().to_vec(),
                marks: marks.clone(),
                queue: queue.clone(),
            }
        })
        .collect()
}

fn chosen<'a>(models: [&'a Dyn; 4], call: &Call) -> (&'a Dyn, &'a Dyn) {
    (models[if call.other_left { 2 } else { 0 }], models[if call.other_right { 3 } else { 1 }])
}

/// Two models that often match, or any two.
fn some_two(chance: &mut Chance, rows: &mut Rows, scale: Scale) -> (Description, Description) {
    if chance.one_in(2) {
        if let Some(both) = related(chance, rows) {
            if both.0.shape + both.1.shape > 0 || chance.one_in(2) {
                return both;
            }
        }
    }
    let left = some_description(chance, rows, scale);
    let right = match chance.below(4) {
        0 => some_description(chance, rows, scale),
        1 => altered(chance, &left),
        _ => left,
    };
    (left, right)
}

pub fn calls_case(chance: &mut Chance, tally: &mut Tally) {
    let mut rows = Rows::default();
    let scale = if chance.one_in(40) { Scale::Any } else { Scale::Tiny };
    let (left, right) = some_two(chance, &mut rows, scale);
    let other_left = altered(chance, &left);
    let other_right = if chance.one_in(2) { altered(chance, &right) } else { some_description(chance, &mut rows, scale) };
    let described: [&Description; 4] = [&left, &right, &other_left, &other_right];
    let built: Vec<Dyn> = described.iter().map(|d| reference(d, &rows)).collect();
    let models = [&built[0], &built[1], &built[2], &built[3]];
    let (n, m) = (models[0].states(), models[1].states());
    let need = (n * m).div_ceil(8);
    let room = match chance.below(40) {
        0 => need.saturating_sub(1),
        1 => chance.below(need + 1),
        2..=9 => need + chance.below(9),
        _ => need,
    };
    // Long enough for the models merged with the left one, now and then.
    let long = n.max(m) * if n.max(m) <= 60 && chance.one_in(2) { n.max(1) } else { 1 } + chance.below(4);
    let lent = Lent {
        bytes: (0..room).map(|_| chance.next() as u8).collect(),
        marks: (0..long).map(|_| chance.next() as u8).collect(),
        queue: (0..long + chance.below(3)).map(|_| chance.next() as u16).collect(),
    };
    let calls = some_calls(chance, models[0], models[1]);
    let afters = run(models, &calls, &lent);
    let named = Models { left: &left, right: &right, other_left: &other_left, other_right: &other_right };
    // The list as a whole, and each of its beginnings where the sheet is small.
    let first = if need <= 64 { 0 } else { calls.len() };
    for length in first..=calls.len() {
        let made = &calls[..length];
        let (mut bytes, mut marks, mut queue) = (lent.bytes.clone(), lent.marks.clone(), lent.queue.clone());
        let answers = library::calls(named, &rows, &mut bytes, &mut marks, &mut queue, made);
        let case = (made, &named, &rows, &lent.bytes, &lent.marks, &lent.queue);
        if length == calls.len() {
            compare_answers(tally, models, &answers, &afters, made, &case);
        }
        if let Some(after) = afters[..length].last() {
            tally.agree("the bytes", &bytes, &after.bytes, &case);
            tally.agree("the marks", &marks, &after.marks, &case);
            tally.agree("the queue", &queue, &after.queue, &case);
        } else {
            let opened = Sheet::open(lent.bytes.clone(), models[0], models[1]);
            tally.agree("the bytes of a new sheet", &bytes[..], opened.bytes(), &case);
        }
    }
}

fn compare_answers(
    tally: &mut Tally,
    models: [&Dyn; 4],
    answers: &[Answer],
    afters: &[After],
    calls: &[Call],
    case: &dyn std::fmt::Debug,
) {
    for (index, (answer, after)) in answers.iter().zip(afters).enumerate() {
        count(tally, &after.answer);
        let Some(ask) = after.asked else {
            tally.agree("an answer", (index, *answer), (index, after.answer), case);
            continue;
        };
        // Which of several states a reply moves to is free, so the answer is held to the definition.
        let (l, r) = chosen(models, &calls[index]);
        let sheet = standing(&after.bytes, models);
        if answer.kind != 2 || !reply_is_right(l, r, &sheet, ask, reply_of(answer)) {
            tally.differ("a reply", &(index, answer), &(index, &after.answer), case);
        }
        tally.met(if *answer == after.answer { "a reply was the same" } else { "a reply was another right one" });
    }
}

/// The sheet whose pairs stand in the bytes.
fn standing(bytes: &[u8], models: [&Dyn; 4]) -> Sheet<Vec<u8>> {
    let mut sheet = Sheet::open(vec![0; bytes.len()], models[0], models[1]);
    let (n, m) = (sheet.rows(), sheet.columns());
    for i in 0..n * m {
        if bytes[i / 8] >> (i % 8) & 1 == 1 {
            let _ = sheet.pair(i / m, i % m);
        }
    }
    sheet
}

fn count(tally: &mut Tally, answer: &Answer) {
    match (answer.kind, answer.number) {
        (3, number) => tally.refused(number),
        (0, _) => tally.met("a pair changed"),
        (1, 0) => tally.met("a verdict was a match"),
        (1, 1) => tally.met("a verdict was a missing start pair"),
        (1, 2) => tally.met("a verdict was a step unanswered"),
        (1, 3) => tally.met("a verdict was an end unanswered"),
        (1, _) => tally.met("a verdict was a root step unanswered"),
        (_, 0) => tally.met("a reply stays"),
        (_, 1) => tally.met("a reply moves"),
        _ => tally.met("a reply is nothing"),
    }
}
