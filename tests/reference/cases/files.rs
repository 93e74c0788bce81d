//! Files read, tables unfolded, texts written.

use super::{Shown, Tally};
use crate::comparer::reading::{read, Equation, File, Room, Term};
use crate::comparer::unfolding::{text, unfold, PROGRAM_ROOM};
use crate::inputs::damages::damaged_file;
use crate::inputs::files::{valid_file, valid_tables, Size};
use crate::inputs::Chance;
use crate::library::{self, EquationEntry, JoinLine, Step, TermEntry};

/// What stands in the entries before a call.
const LINE: JoinLine = JoinLine { a: 171, b: 172, joint: 173 };
const EQUATION: EquationEntry = EquationEntry { letter: b'e', variable: 174, action: 175, next: 176 };
const TERM: TermEntry = TermEntry { sign: b'h', first: 43_981, second: 0xabcd_abcd_abcd_abcd };
const STEP: Step = Step { action: 177, target: 43_982 };
const END: u16 = 43_983;
const BYTE: u8 = 178;

/// What a refusal leaves.
const NO_LINE: JoinLine = JoinLine { a: 0, b: 0, joint: 0 };
const NO_EQUATION: EquationEntry = EquationEntry { letter: b'f', variable: 0, action: 0, next: 0 };
const NO_TERM: TermEntry = TermEntry { sign: b'a', first: 0, second: 0 };
const NO_STEP: Step = Step { action: 0, target: 0 };

fn line_entry(&(a, b, joint): &(u8, u8, u8)) -> JoinLine {
    JoinLine { a, b, joint }
}

fn equation_entry(equation: &Equation) -> EquationEntry {
    match *equation {
        Equation::Becomes(variable, action, next) => EquationEntry { letter: b'e', variable, action, next },
        Equation::Ends(variable, action) => EquationEntry { letter: b'f', variable, action, next: 0 },
    }
}

fn term_entry(term: &Term) -> TermEntry {
    let (sign, first, second) = match *term {
        Term::Action(a) => (b'a', u16::from(a), 0),
        Term::Deadlock => (b'd', 0, 0),
        Term::Variable(x) => (b'v', u16::from(x), 0),
        Term::Choice(p, q) => (b'+', p, u64::from(q)),
        Term::Sequence(p, q) => (b'.', p, u64::from(q)),
        Term::Merge(p, q) => (b'm', p, u64::from(q)),
        Term::LeftMerge(p, q) => (b'l', p, u64::from(q)),
        Term::CommunicationMerge(p, q) => (b'j', p, u64::from(q)),
        Term::Block(p, set) => (b'b', p, set),
        Term::Hide(p, set) => (b'h', p, set),
    };
    TermEntry { sign, first, second }
}

/// The entries of a filled row: what is filled, and then what stood before.
fn filled<T: Copy, E: Copy>(from: &[T], entry: fn(&T) -> E, unused: E, length: usize) -> Vec<E> {
    let mut row: Vec<E> = from.iter().map(entry).collect();
    row.resize(length, unused);
    row
}

/// A length at, below or above a limit; mostly enough.
fn some_length(chance: &mut Chance, limit: usize, most: usize) -> usize {
    match chance.below(8) {
        0 if chance.one_in(3) => chance.below(8),
        1 => chance.below(most + 1),
        2 => limit - 1,
        3 => most,
        _ => limit,
    }
}

/// Just what is needed, one less, or some more.
fn near(chance: &mut Chance, needed: usize) -> usize {
    match chance.below(8) {
        0 => needed.saturating_sub(1),
        1 => needed + chance.below(5),
        _ => needed,
    }
}

/// Room for a file's tables: near what they need, or of any lengths.
fn some_room(chance: &mut Chance, bytes: &[u8]) -> Room {
    if chance.one_in(2) {
        if let Ok(file) = read(bytes, &PROGRAM_ROOM) {
            return Room {
                lines: near(chance, file.lines.len()),
                equations: near(chance, file.equations.len()),
                terms: near(chance, file.terms.len()),
            };
        }
    }
    Room {
        lines: some_length(chance, 32, 40),
        equations: some_length(chance, 1_024, 1_040),
        terms: some_length(chance, 256, 272),
    }
}

/// Entries for terms, steps and row ends: near what the table needs, or of any lengths.
fn some_entries(chance: &mut Chance, file: &File) -> (usize, usize, usize) {
    if chance.one_in(2) {
        if let Ok(unfolded) = unfold(&file.lines, &file.equations, &file.terms, file.start, 4_095, 16_384, 4_096) {
            let steps = unfolded.rows.iter().map(Vec::len).sum();
            let (terms, rows) = (unfolded.terms.len(), unfolded.rows.len());
            return (near(chance, terms), near(chance, steps), near(chance, rows));
        }
    }
    (some_length(chance, 4_095, 4_112), some_length(chance, 16_384, 16_400), some_length(chance, 4_096, 4_100))
}

fn some_file(chance: &mut Chance) -> Vec<u8> {
    match chance.below(10) {
        0 | 1 => valid_file(chance),
        2 => (0..chance.below(40)).map(|_| chance.pick(b"0123456789,,,\n\nmceftzadv+.ljbh")).collect(),
        _ => damaged_file(chance),
    }
}

pub fn read_case(chance: &mut Chance, tally: &mut Tally) {
    let bytes = some_file(chance);
    let room = some_room(chance, &bytes);
    let case = (Shown(&bytes), room.lines, room.equations, room.terms);
    let mut lines = vec![LINE; room.lines];
    let mut equations = vec![EQUATION; room.equations];
    let mut terms = vec![TERM; room.terms];
    let reading = library::read(&bytes, &mut lines, &mut equations, &mut terms);
    match read(&bytes, &room) {
        Ok(file) => {
            tally.met("a file was read");
            let counts = (0, 0, file.variables, file.lines.len(), file.equations.len(), file.terms.len(), file.start);
            tally.agree("what reading tells", told(&reading), counts, &case);
            tally.agree("the lines", lines, filled(&file.lines, line_entry, LINE, room.lines), &case);
            tally.agree("the equations", equations, filled(&file.equations, equation_entry, EQUATION, room.equations), &case);
            tally.agree("the terms", terms, filled(&file.terms, term_entry, TERM, room.terms), &case);
        }
        Err(refusal) => {
            tally.refused(refusal.number);
            tally.agree("what reading tells", told(&reading), (refusal.number, refusal.line, 0, 0, 0, 0, 0), &case);
            tally.agree("the lines", lines, vec![NO_LINE; room.lines], &case);
            tally.agree("the equations", equations, vec![NO_EQUATION; room.equations], &case);
            tally.agree("the terms", terms, vec![NO_TERM; room.terms], &case);
        }
    }
}

fn told(reading: &library::Reading) -> (u8, usize, usize, usize, usize, usize, usize) {
    let library::Reading { number, line, variables, lines, equations, terms, start } = *reading;
    (number, line, variables, lines, equations, terms, start)
}

/// One change after which most tables fit no file.
fn spoil(chance: &mut Chance, file: &mut File) {
    let any_action = |chance: &mut Chance| chance.pick(&[0, 1, 5, 62, 63, 64, 65, 255]);
    let any_number = |chance: &mut Chance, given: usize| chance.pick(&[0, 1, given, given + 1, 256, 257, 4_095, 65_535]);
    let terms = file.terms.len();
    match chance.below(9) {
        0 => file.start = any_number(chance, terms),
        1 => file.lines.push((any_action(chance), any_action(chance), any_action(chance))),
        2 => file.equations.push(Equation::Becomes(chance.below(4) as u8, any_action(chance), chance.below(4) as u8)),
        3 => file.equations.push(Equation::Ends(chance.below(256) as u8, any_action(chance))),
        4 => {
            let (p, q) = (any_number(chance, terms) as u16, any_number(chance, terms) as u16);
            let set = chance.next();
            let action = any_action(chance);
            file.terms.push(chance.pick(&[
                Term::Action(action),
                Term::Variable(action),
                Term::Choice(p, q),
                Term::Sequence(p, q),
                Term::Merge(p, q),
                Term::LeftMerge(p, q),
                Term::CommunicationMerge(p, q),
                Term::Block(p, set),
                Term::Hide(p, set),
            ]));
        }
        5 => {
            let again = chance.pick(&file.terms);
            file.terms.push(again);
        }
        6 => file.terms.swap(0, terms - 1),
        7 => {
            for x in 0..=255u8 {
                for action in 40..45 {
                    if file.equations.len() < 1_040 {
                        file.equations.push(Equation::Ends(x, action));
                    }
                }
            }
        }
        _ => {
            while file.terms.len() < 257 + chance.below(2) {
                let given = file.terms.len() as u64;
                file.terms.push(Term::Block(1, (given + 4_096) * 2));
            }
        }
    }
}

fn some_tables(chance: &mut Chance) -> File {
    let size = match chance.below(12) {
        0 => Size::Long,
        1..=4 => Size::Middle,
        _ => Size::Small,
    };
    let mut file = valid_tables(chance, size);
    if chance.one_in(4) {
        spoil(chance, &mut file);
    }
    file
}

pub fn unfold_case(chance: &mut Chance, tally: &mut Tally) {
    let file = some_tables(chance);
    let room = some_entries(chance, &file);
    let case = (&file, room);
    let lines = filled(&file.lines, line_entry, LINE, file.lines.len());
    let equations = filled(&file.equations, equation_entry, EQUATION, file.equations.len());
    let given = filled(&file.terms, term_entry, TERM, file.terms.len());
    let mut terms = vec![TERM; room.0];
    let mut steps = vec![STEP; room.1];
    let mut ends = vec![END; room.2];
    let unfolding = library::unfold(&lines, &equations, &given, file.start, &mut terms, &mut steps, &mut ends);
    let answer = (unfolding.number, unfolding.terms, unfolding.steps, unfolding.start);
    match unfold(&file.lines, &file.equations, &file.terms, file.start, room.0, room.1, room.2) {
        Ok(unfolded) => {
            tally.met("tables were unfolded");
            let all: Vec<(u8, u16)> = unfolded.rows.concat();
            let mut end = 0;
            let rows: Vec<u16> = unfolded.rows.iter().map(|row| { end += row.len() as u16; end }).collect();
            tally.agree("what unfolding tells", answer, (0, unfolded.terms.len(), all.len(), unfolded.start), &case);
            tally.agree("the terms", terms, filled(&unfolded.terms, term_entry, TERM, room.0), &case);
            let step = |&(action, target): &(u8, u16)| Step { action, target };
            tally.agree("the steps", steps.clone(), filled(&all, step, STEP, room.1), &case);
            tally.agree("the row ends", ends.clone(), filled(&rows, |&end| end, END, room.2), &case);
            text_case(chance, tally, &ends, &steps, &unfolding, &text(&unfolded), &case);
        }
        Err(number) => {
            tally.refused(number);
            tally.agree("what unfolding tells", answer, (number, 0, 0, 0), &case);
            tally.agree("the terms", terms, vec![NO_TERM; room.0], &case);
            tally.agree("the steps", steps, vec![NO_STEP; room.1], &case);
            tally.agree("the row ends", ends, vec![0; room.2], &case);
        }
    }
}

/// The text into buffers that are long enough, just enough, and too short.
fn text_case(
    chance: &mut Chance,
    tally: &mut Tally,
    ends: &[u16],
    steps: &[Step],
    n: &library::Unfolding,
    expected: &[u8],
    case: &dyn std::fmt::Debug,
) {
    let length = expected.len();
    for room in [length, length - 1, length + chance.below(20), chance.below(length)] {
        let mut buffer = vec![BYTE; room];
        let writing = library::write(ends, steps, n.terms, n.steps, n.start, &mut buffer);
        if room < length {
            tally.refused(15);
            tally.agree("the refused text", (writing.number, writing.length), (15, 0), case);
            tally.agree("the buffer", buffer, vec![BYTE; room], case);
        } else {
            tally.met("a text was written");
            tally.agree("what writing tells", (writing.number, writing.length), (0, length), case);
            tally.agree("the text", &buffer[..length], expected, case);
            tally.agree("the rest of the buffer", &buffer[length..], &vec![BYTE; room - length][..], case);
        }
    }
}
