//! Which tables a model file may hold. (docs/FORMAT.md, "What the lines say together")

use super::reading::{Equation, Term};
use std::collections::HashSet;

pub const MOST_LINES: usize = 32;
pub const MOST_EQUATIONS: usize = 1_024;
pub const MOST_TERMS: usize = 256;

/// Whether some file may hold these tables. A file of 256 variables may name any variable of 8 bits,
/// so the count of variables does not matter; and no such tables have too long a text.
pub fn acceptable(lines: &[(u8, u8, u8)], equations: &[Equation], terms: &[Term], start: usize) -> bool {
    lines_stand(lines) && equations_stand(equations) && terms_stand(terms) && start >= 1 && start <= terms.len()
}

/// At most 32 lines over the actions 1 to 63, no pair named twice, associative together.
pub fn lines_stand(lines: &[(u8, u8, u8)]) -> bool {
    let action = |a: u8| (1..=63).contains(&a);
    let mut named = [0u64; 64];
    lines.len() <= MOST_LINES
        && lines.iter().all(|&(a, b, r)| action(a) && action(b) && action(r))
        && lines.iter().all(|&(a, b, _)| {
            let fresh = named[a as usize] >> b & 1 == 0;
            named[a as usize] |= 1 << b;
            named[b as usize] |= 1 << a;
            fresh
        })
        && associative(lines)
}

fn equations_stand(equations: &[Equation]) -> bool {
    let mut known = HashSet::with_capacity(equations.len().min(MOST_EQUATIONS));
    equations.len() <= MOST_EQUATIONS
        && equations.iter().all(|&equation| {
            let (Equation::Becomes(_, action, _) | Equation::Ends(_, action)) = equation;
            action <= 63 && known.insert(equation)
        })
        && !silent_ring(equations)
}

fn terms_stand(terms: &[Term]) -> bool {
    let mut known = HashSet::with_capacity(terms.len().min(MOST_TERMS));
    terms.len() <= MOST_TERMS
        && terms.iter().enumerate().all(|(before, &term)| {
            // A term names earlier terms only; they are numbered from 1.
            let earlier = |n: u16| n >= 1 && usize::from(n) <= before;
            let fits = match term {
                Term::Action(action) => action <= 63,
                Term::Deadlock | Term::Variable(_) => true,
                Term::Choice(x, y)
                | Term::Sequence(x, y)
                | Term::Merge(x, y)
                | Term::LeftMerge(x, y)
                | Term::CommunicationMerge(x, y) => earlier(x) && earlier(y),
                // No set holds action 0.
                Term::Block(x, set) | Term::Hide(x, set) => earlier(x) && set & 1 == 0,
            };
            fits && known.insert(term)
        })
}

/// What two actions join to, 0 for nothing.
pub type Joins = [[u8; 64]; 64];

/// The lines' actions must be from 0 to 63. An action joins in either order.
pub fn joins(lines: &[(u8, u8, u8)]) -> Joins {
    let mut table = [[0; 64]; 64];
    for &(a, b, r) in lines {
        table[a as usize][b as usize] = r;
        table[b as usize][a as usize] = r;
    }
    table
}

/// Joining a and b and then c gives what joining a with the joint of b and c gives, nothing included.
///
/// Where neither a with b nor b with c join, both ways give nothing. Where only b with c join, the
/// mirrored triple c, b, a says the same, since joining is commutative. So only triples whose
/// first two actions are a line's are looked at.
pub fn associative(lines: &[(u8, u8, u8)]) -> bool {
    let table = joins(lines);
    let join = |a: u8, b: u8| table[a as usize][b as usize];
    let agrees = |a: u8, b: u8| {
        let joint = join(a, b);
        (1..64).all(|c| {
            let other = join(b, c);
            // Row 0 of the table is empty, so nothing joins to nothing.
            join(joint, c) == join(a, other)
        })
    };
    lines.iter().all(|&(a, b, _)| agrees(a, b) && agrees(b, a))
}

/// Whether silent e lines lead from some variable back to itself.
pub fn silent_ring(equations: &[Equation]) -> bool {
    let silent = |equation: &Equation| match *equation {
        Equation::Becomes(x, 0, y) => Some((usize::from(x), usize::from(y))),
        _ => None,
    };
    let mut targets: Vec<Vec<usize>> = vec![Vec::new(); 256];
    let mut incoming = [0usize; 256];
    for (x, y) in equations.iter().filter_map(silent) {
        targets[x].push(y);
        incoming[y] += 1;
    }
    // Take away variables that nothing leads to, again and again; what is left lies behind a ring.
    let mut free: Vec<usize> = (0..256).filter(|&x| incoming[x] == 0).collect();
    let mut taken = 0;
    while let Some(x) = free.pop() {
        taken += 1;
        for &y in &targets[x] {
            incoming[y] -= 1;
            if incoming[y] == 0 {
                free.push(y);
            }
        }
    }
    taken < 256
}
