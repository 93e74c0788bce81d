//! Model files that are read: of every size, with terms of every kind.

use super::super::comparer::accepting::associative;
use super::super::comparer::reading::{Equation, File, Term};
use super::super::comparer::writing::write;
use super::Chance;
use std::collections::HashSet;

/// How long a file becomes.
#[derive(Clone, Copy, PartialEq, Eq, Debug)]
pub enum Size {
    Small,
    Middle,
    Long,
}

/// A file that is read, of any size.
pub fn valid_file(chance: &mut Chance) -> Vec<u8> {
    let size = match chance.below(10) {
        0..=5 => Size::Small,
        6..=8 => Size::Middle,
        _ => Size::Long,
    };
    write(&valid_tables(chance, size))
}

/// Tables that a file may hold.
pub fn valid_tables(chance: &mut Chance, size: Size) -> File {
    let variables = match size {
        Size::Small => chance.between(0, 4),
        Size::Middle => chance.between(0, 20),
        Size::Long => chance.pick(&[1, 40, 255, 256]),
    };
    let actions = palette(chance);
    let lines = associative_lines(chance, &actions);
    let most = match size {
        Size::Small => chance.below(7),
        Size::Middle => chance.below(60),
        Size::Long => chance.pick(&[200, 1_023, 1_024]),
    };
    let equations = some_equations(chance, variables, &actions, most);
    let most = match size {
        Size::Small => chance.between(1, 9),
        Size::Middle => chance.between(1, 40),
        Size::Long => chance.pick(&[100, 255, 256]),
    };
    let terms = some_terms(chance, variables, &actions, most);
    let start = if chance.one_in(3) { chance.between(1, terms.len()) } else { terms.len() };
    File { variables, lines, equations, terms, start }
}

/// A few actions, so that different parts of a file meet. Sometimes all.
pub fn palette(chance: &mut Chance) -> Vec<u8> {
    if chance.one_in(8) {
        return (1..64).collect();
    }
    let count = chance.between(2, 8);
    (0..count).map(|_| if chance.one_in(6) { 63 } else { chance.between(1, 12) as u8 }).collect()
}

/// Lines of one of several kinds that are always associative, or a few by chance that happen to be.
pub fn associative_lines(chance: &mut Chance, actions: &[u8]) -> Vec<(u8, u8, u8)> {
    let mut members: Vec<u8> = (1..64).collect();
    chance.shuffle(&mut members);
    if chance.one_in(2) {
        // The palette's own actions first, so that the lines are of use.
        let mut first = actions.to_vec();
        first.sort_unstable();
        first.dedup();
        chance.shuffle(&mut first);
        members.retain(|action| !first.contains(action));
        first.extend(members);
        members = first;
    }
    let k = chance.between(1, 7);
    let mut lines = Vec::new();
    let mut table = |joint: &dyn Fn(usize, usize) -> Option<usize>| {
        for i in 0..k {
            for j in i..k {
                if let Some(r) = joint(i, j) {
                    lines.push((members[i], members[j], members[r]));
                }
            }
        }
    };
    match chance.below(7) {
        0 => {}
        // All join to one of them.
        1 => table(&|_, _| Some(0)),
        // They count round.
        2 => table(&|i, j| Some((i + j) % k)),
        // The larger one is left.
        3 => table(&|i, j| Some(i.max(j))),
        // They count up, and what is too large is nothing.
        4 => table(&|i, j| if i + j + 1 < k { Some(i + j + 1) } else { None }),
        // Pairs join to actions that join with nothing.
        5 => {
            let count = chance.between(1, 32);
            let (sources, results) = members.split_at(12);
            for i in 0..12 {
                for j in i..12 {
                    lines.push((sources[i], sources[j], chance.pick(results)));
                }
            }
            chance.shuffle(&mut lines);
            lines.truncate(count);
        }
        // By chance.
        _ => {
            for _ in 0..chance.between(1, 3) {
                lines.push((chance.pick(actions), chance.pick(actions), chance.pick(actions)));
            }
            let mut named = HashSet::new();
            lines.retain(|&(a, b, _)| named.insert((a.min(b), a.max(b))));
            if !associative(&lines) {
                lines.truncate(1);
            }
            if !associative(&lines) {
                lines.clear();
            }
        }
    }
    chance.shuffle(&mut lines);
    for line in &mut lines {
        if chance.one_in(2) {
            *line = (line.1, line.0, line.2);
        }
    }
    lines
}

/// Different equations without a silent ring: silent lines only lead up in a mixed order of the variables.
fn some_equations(chance: &mut Chance, variables: usize, actions: &[u8], most: usize) -> Vec<Equation> {
    let (factor, shift) = (chance.next() as u8 | 1, chance.next() as u8);
    let rank = |x: u8| x.wrapping_mul(factor).wrapping_add(shift);
    let mut known = HashSet::new();
    let mut equations = Vec::new();
    if variables == 0 {
        return equations;
    }
    for _ in 0..most * 2 {
        if equations.len() == most {
            break;
        }
        let (x, y) = (chance.below(variables) as u8, chance.below(variables) as u8);
        let action = if chance.one_in(4) { 0 } else { chance.pick(actions) };
        let equation = if chance.one_in(4) {
            Equation::Ends(x, action)
        } else if action > 0 || rank(x) < rank(y) {
            Equation::Becomes(x, action, y)
        } else {
            Equation::Ends(y, action)
        };
        if known.insert(equation) {
            equations.push(equation);
        }
    }
    equations
}

/// A set over the palette, or over all actions.
pub fn some_set(chance: &mut Chance, actions: &[u8]) -> u64 {
    match chance.below(8) {
        0 => 0,
        1 => chance.next() & !1,
        2 => !1,
        _ => actions.iter().filter(|_| chance.one_in(2)).fold(0, |set, &action| set | 1 << action) & !1,
    }
}

/// Different terms of every kind; the first one names no other.
fn some_terms(chance: &mut Chance, variables: usize, actions: &[u8], most: usize) -> Vec<Term> {
    let mut known = HashSet::new();
    let mut terms: Vec<Term> = Vec::new();
    // Merges make long tables, so some files have few of them.
    let merges = chance.between(1, 8);
    while terms.len() < most {
        let given = terms.len();
        let leaf = given == 0 || chance.one_in(3);
        let action = if chance.one_in(5) { 0 } else { chance.pick(actions) };
        let term = if leaf {
            match chance.below(8) {
                0 => Term::Deadlock,
                1..=3 if variables > 0 => Term::Variable(chance.below(variables) as u8),
                _ => Term::Action(action),
            }
        } else {
            let x = chance.between(1, given) as u16;
            let y = if chance.one_in(3) { given as u16 } else { chance.between(1, given) as u16 };
            match chance.below(6 + merges) {
                0 | 1 => Term::Choice(x, y),
                2 | 3 => Term::Sequence(x, y),
                4 => Term::Block(x, some_set(chance, actions)),
                5 => Term::Hide(x, some_set(chance, actions)),
                6 => Term::LeftMerge(x, y),
                7 => Term::CommunicationMerge(x, y),
                _ => Term::Merge(x, y),
            }
        };
        if known.insert(term) {
            terms.push(term);
        } else if known.len() > 1 && chance.one_in(200) {
            break;
        }
    }
    terms
}

/// A file whose table has so many states, the ended process counted, from 995 on, or so many steps, from 3,906 on.
/// It is a ring of 31 variables beside itself, and then as much more as is asked for.
pub fn file_with_states(states: usize) -> Vec<u8> {
    let ring: String = (0..31).map(|x| format!("e,{x},1,{}\n", (x + 1) % 31)).collect();
    // 31 variables, 31 × 31 merges and the ended process, and one term for each of the actions below.
    let more: String = (0..states - 993).map(|index| format!("t,{},a,{},0\n", index + 3, index)).collect();
    format!("m,31\n{ring}t,1,v,0,0\nt,2,m,1,1\n{more}z,2\n").into_bytes()
}

pub fn file_with_steps(steps: usize) -> Vec<u8> {
    let ring = |x: usize| format!("e,{x},1,{}\ne,{x},2,{}\n", (x + 1) % 31, (x + 30) % 31);
    let ring: String = (0..31).map(ring).collect();
    // Two steps for each variable and four for each merge make 3,906; each f line is one more.
    let more = steps - 3_906;
    let ends: String = (0..more).map(|index| format!("f,{},{}\n", 31 + index / 64, index % 64)).collect();
    let others = (more + 63) / 64;
    let terms: String = (0..others).map(|index| format!("t,{},v,{},0\n", index + 3, 31 + index)).collect();
    format!("m,{}\n{ring}{ends}t,1,v,0,0\nt,2,m,1,1\n{terms}z,2\n", 31 + others).into_bytes()
}
