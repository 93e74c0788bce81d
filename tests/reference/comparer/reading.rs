//! Reading a model file: its tables, or the first fault with its line. (docs/FORMAT.md, docs/REFUSALS.md)

use super::accepting::{associative, silent_ring, MOST_EQUATIONS, MOST_LINES, MOST_TERMS};
use std::collections::HashSet;

/// The entries handed over for each table. Longer tables than the format allows do not lift its limits.
pub struct Room {
    pub lines: usize,
    pub equations: usize,
    pub terms: usize,
}

#[derive(Clone, Copy, PartialEq, Eq, Hash, Debug)]
pub struct Refusal {
    pub number: u8,
    pub line: usize,
}

#[derive(Clone, PartialEq, Eq, Hash, Debug)]
pub struct File {
    pub variables: usize,
    pub lines: Vec<(u8, u8, u8)>,
    pub equations: Vec<Equation>,
    pub terms: Vec<Term>,
    pub start: usize,
}

/// `Becomes(X, a, Y)` is an e line, `Ends(X, a)` an f line.
#[derive(Clone, Copy, PartialEq, Eq, Hash, Debug)]
pub enum Equation {
    Becomes(u8, u8, u8),
    Ends(u8, u8),
}

/// Operands that are terms are numbers of terms, counted from 1.
#[derive(Clone, Copy, PartialEq, Eq, Hash, Debug)]
pub enum Term {
    Action(u8),
    Deadlock,
    Variable(u8),
    Choice(u16, u16),
    Sequence(u16, u16),
    Merge(u16, u16),
    LeftMerge(u16, u16),
    CommunicationMerge(u16, u16),
    Block(u16, u64),
    Hide(u16, u64),
}

const LONGEST_FILE: usize = 32_768;

pub fn read(bytes: &[u8], room: &Room) -> Result<File, Refusal> {
    // The size is tested before anything else, and has no line.
    if bytes.len() > LONGEST_FILE {
        return Err(Refusal { number: 1, line: 0 });
    }
    let mut reader = Reader::new(room);
    let mut rest = bytes;
    let mut line = 1;
    while !rest.is_empty() {
        // Whatever stands behind z is not read, not even for its line feed.
        if reader.start.is_some() {
            return Err(Refusal { number: 12, line });
        }
        // A last piece without a line feed has no form, whatever it holds.
        let Some(end) = rest.iter().position(|&byte| byte == b'\n') else {
            return Err(Refusal { number: 2, line });
        };
        reader.take(&rest[..end]).map_err(|number| Refusal { number, line })?;
        rest = &rest[end + 1..];
        line += 1;
    }
    match reader.start {
        // The file ends without z: the fault is at the line after the last one.
        None => Err(Refusal { number: 12, line }),
        Some(start) => Ok(File {
            variables: reader.variables,
            lines: reader.lines,
            equations: reader.equations,
            terms: reader.terms,
            start,
        }),
    }
}

/// What one line says, once its form and its values are known to be right.
#[derive(Clone, Copy)]
enum Said {
    Variables(u32),
    Joins(u32, u32, u32),
    Becomes(u32, u32, u32),
    Ends(u32, u32),
    /// Number, sign, and the two operands; a set stands in the last one.
    Term(u32, u8, u32, u64),
    Start(u32),
}

/// A number is one to five decimal digits without a leading zero; 0 itself is `0`.
fn number(field: &[u8]) -> Option<u32> {
    if field.is_empty() || field.len() > 5 || (field[0] == b'0' && field.len() > 1) {
        return None;
    }
    let mut value = 0;
    for &byte in field {
        if !byte.is_ascii_digit() {
            return None;
        }
        value = value * 10 + u32::from(byte - b'0');
    }
    Some(value)
}

/// A set is exactly sixteen hexadecimal digits, with small letters.
fn set(field: &[u8]) -> Option<u64> {
    if field.len() != 16 {
        return None;
    }
    let mut value = 0;
    for &byte in field {
        let digit = match byte {
            b'0'..=b'9' => byte - b'0',
            b'a'..=b'f' => byte - b'a' + 10,
            _ => return None,
        };
        value = value * 16 + u64::from(digit);
    }
    Some(value)
}

/// The form of a line (fault 2), then its values (fault 3).
fn parse(line: &[u8]) -> Result<Said, u8> {
    let mut parts: [&[u8]; 5] = [&[]; 5];
    let mut count = 0;
    for part in line.split(|&byte| byte == b',') {
        if count == parts.len() {
            return Err(2);
        }
        parts[count] = part;
        count += 1;
    }
    let [letter, fields @ ..] = &parts;
    let due = match *letter {
        b"m" | b"z" => 1,
        b"f" => 2,
        b"c" | b"e" => 3,
        b"t" => 4,
        _ => return Err(2),
    };
    if count != due + 1 {
        return Err(2);
    }
    let value = |index: usize| number(fields[index]).ok_or(3);
    Ok(match letter[0] {
        b'm' => Said::Variables(value(0)?),
        b'c' => Said::Joins(value(0)?, value(1)?, value(2)?),
        b'e' => Said::Becomes(value(0)?, value(1)?, value(2)?),
        b'f' => Said::Ends(value(0)?, value(1)?),
        b'z' => Said::Start(value(0)?),
        _ => {
            // The sign is exactly one byte, and belongs to the form of the line.
            let sign = match fields[1] {
                [sign] if b"adv+.mljbh".contains(sign) => *sign,
                _ => return Err(2),
            };
            let last = match sign {
                b'b' | b'h' => set(fields[3]).ok_or(3)?,
                _ => u64::from(value(3)?),
            };
            Said::Term(value(0)?, sign, value(2)?, last)
        }
    })
}

struct Reader {
    most_lines: usize,
    most_equations: usize,
    most_terms: usize,
    /// 0 before m; then the largest turn read so far.
    turn: u8,
    variables: usize,
    lines: Vec<(u8, u8, u8)>,
    equations: Vec<Equation>,
    terms: Vec<Term>,
    start: Option<usize>,
    known_equations: HashSet<Equation>,
    known_terms: HashSet<Term>,
}

impl Reader {
    fn new(room: &Room) -> Reader {
        Reader {
            most_lines: room.lines.min(MOST_LINES),
            most_equations: room.equations.min(MOST_EQUATIONS),
            most_terms: room.terms.min(MOST_TERMS),
            turn: 0,
            variables: 0,
            lines: Vec::new(),
            equations: Vec::new(),
            terms: Vec::new(),
            start: None,
            known_equations: HashSet::new(),
            known_terms: HashSet::new(),
        }
    }

    /// Reads one line without its line feed. Faults are tested in the order of their numbers.
    fn take(&mut self, line: &[u8]) -> Result<(), u8> {
        let said = parse(line)?;
        let turn = turn_of(said);
        // m comes first and once; the others come in their order.
        if (turn == 1) != (self.turn == 0) || turn < self.turn {
            return Err(4);
        }
        if self.over_limit(said) {
            return Err(5);
        }
        if self.wrong_number(said) {
            return Err(6);
        }
        if silent_used(said) {
            return Err(7);
        }
        self.turn = turn;
        match said {
            Said::Variables(count) => self.variables = count as usize,
            Said::Joins(a, b, r) => {
                let (a, b, r) = (a as u8, b as u8, r as u8);
                // No pair is named twice, in either order, whatever it joins to.
                if self.lines.iter().any(|&(c, d, _)| (c, d) == (a, b) || (d, c) == (a, b)) {
                    return Err(8);
                }
                if self.lines.len() >= self.most_lines {
                    return Err(9);
                }
                self.lines.push((a, b, r));
            }
            Said::Becomes(x, a, y) => self.equation(Equation::Becomes(x as u8, a as u8, y as u8))?,
            Said::Ends(x, a) => self.equation(Equation::Ends(x as u8, a as u8))?,
            Said::Term(_, sign, p, q) => self.term(made(sign, p, q))?,
            Said::Start(n) => {
                // What the lines say together is told at z: 10 before 11.
                if !associative(&self.lines) {
                    return Err(10);
                }
                if silent_ring(&self.equations) {
                    return Err(11);
                }
                self.start = Some(n as usize);
            }
        }
        Ok(())
    }

    /// V over 256, an action over 63, a variable not below V, or an unused field that is not 0.
    fn over_limit(&self, said: Said) -> bool {
        let action = |a: u32| a > 63;
        let variable = |x: u32| x as usize >= self.variables;
        match said {
            Said::Variables(count) => count > 256,
            Said::Joins(a, b, r) => action(a) || action(b) || action(r),
            Said::Becomes(x, a, y) => variable(x) || action(a) || variable(y),
            Said::Ends(x, a) => variable(x) || action(a),
            Said::Term(_, b'a', p, q) => action(p) || q != 0,
            Said::Term(_, b'd', p, q) => p != 0 || q != 0,
            Said::Term(_, b'v', p, q) => variable(p) || q != 0,
            Said::Term(..) | Said::Start(_) => false,
        }
    }

    /// A number that is not the next, an operand that is no earlier term, a start that is not given.
    fn wrong_number(&self, said: Said) -> bool {
        let given = self.terms.len() as u64;
        let missing = |n: u64| n == 0 || n > given;
        match said {
            Said::Term(n, sign, p, q) => {
                u64::from(n) != given + 1
                    || match sign {
                        b'a' | b'd' | b'v' => false,
                        b'b' | b'h' => missing(u64::from(p)),
                        _ => missing(u64::from(p)) || missing(q),
                    }
            }
            Said::Start(n) => missing(u64::from(n)),
            _ => false,
        }
    }

    fn equation(&mut self, equation: Equation) -> Result<(), u8> {
        if self.known_equations.contains(&equation) {
            return Err(8);
        }
        if self.equations.len() >= self.most_equations {
            return Err(9);
        }
        self.known_equations.insert(equation);
        self.equations.push(equation);
        Ok(())
    }

    fn term(&mut self, term: Term) -> Result<(), u8> {
        if self.known_terms.contains(&term) {
            return Err(8);
        }
        if self.terms.len() >= self.most_terms {
            return Err(9);
        }
        self.known_terms.insert(term);
        self.terms.push(term);
        Ok(())
    }
}

/// m, then the c lines, then e and f mixed, then the t lines, then z.
fn turn_of(said: Said) -> u8 {
    match said {
        Said::Variables(_) => 1,
        Said::Joins(..) => 2,
        Said::Becomes(..) | Said::Ends(..) => 3,
        Said::Term(..) => 4,
        Said::Start(_) => 5,
    }
}

/// Action 0 in a c line or in a set.
fn silent_used(said: Said) -> bool {
    match said {
        Said::Joins(a, b, r) => a == 0 || b == 0 || r == 0,
        Said::Term(_, b'b' | b'h', _, set) => set & 1 == 1,
        _ => false,
    }
}

/// The term of a sign and operands that were tested.
fn made(sign: u8, p: u32, q: u64) -> Term {
    let (left, right) = (p as u16, q as u16);
    match sign {
        b'a' => Term::Action(p as u8),
        b'd' => Term::Deadlock,
        b'v' => Term::Variable(p as u8),
        b'+' => Term::Choice(left, right),
        b'.' => Term::Sequence(left, right),
        b'm' => Term::Merge(left, right),
        b'l' => Term::LeftMerge(left, right),
        b'j' => Term::CommunicationMerge(left, right),
        b'b' => Term::Block(left, q),
        _ => Term::Hide(left, q),
    }
}
