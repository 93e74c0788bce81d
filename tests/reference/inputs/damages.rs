//! Damaged model files. Over some thousands of them every refusal is met many times.

use super::super::comparer::accepting::silent_ring;
use super::super::comparer::reading::Equation;
use super::super::comparer::writing::write;
use super::files::{valid_tables, Size};
use super::Chance;
use std::collections::HashSet;

/// Numbers at and beside the limits, and things that are no numbers.
const ODD_FIELDS: [&str; 28] = [
    "0", "1", "2", "31", "32", "33", "62", "63", "64", "255", "256", "257", "1023", "1024", "1025", "4096", "32768",
    "65535", "65536", "65537", "99999", "100000", "00", "01", "", "-1", "0000000000000001", "000000000000000A",
];

fn lines_of(file: &[u8]) -> Vec<Vec<u8>> {
    file.split_inclusive(|&byte| byte == b'\n').map(<[u8]>::to_vec).collect()
}

/// A file with one to three damages; some of them are read all the same.
pub fn damaged_file(chance: &mut Chance) -> Vec<u8> {
    let size = if chance.one_in(8) { Size::Middle } else { Size::Small };
    let mut file = write(&valid_tables(chance, size));
    for _ in 0..if chance.one_in(3) { chance.between(2, 3) } else { 1 } {
        file = damage(chance, file);
    }
    file
}

/// The number of kinds that `damage_of_kind` knows.
pub const KINDS_OF_DAMAGE: usize = 20;

fn damage(chance: &mut Chance, file: Vec<u8>) -> Vec<u8> {
    let kind = chance.below(KINDS_OF_DAMAGE);
    damage_of_kind(chance, file, kind)
}

pub fn damage_of_kind(chance: &mut Chance, mut file: Vec<u8>, kind: usize) -> Vec<u8> {
    let mut lines = lines_of(&file);
    let count = lines.len();
    if count == 0 {
        return b"m,0\n".to_vec();
    }
    let some = chance.below(count);
    match kind {
        // Bytes changed, put in, taken out.
        0 => {
            let at = chance.below(file.len());
            file[at] = chance.pick(b"0123456789,,\n\r mceftzadv+.ljbh\x00\xff");
            return file;
        }
        1 => {
            let at = chance.below(file.len() + 1);
            file.insert(at, chance.pick(b"0123456789,,\n\r mceftzadv+.ljbh\x00\xff"));
            return file;
        }
        2 => {
            let at = chance.below(file.len());
            file.remove(at);
            return file;
        }
        3 => {
            file.truncate(chance.below(file.len() + 1));
            return file;
        }
        // Lines dropped, said twice, exchanged, mixed.
        4 => {
            lines.remove(some);
        }
        5 => {
            let line = lines[some].clone();
            let at = if chance.one_in(2) { some } else { chance.below(count + 1) };
            lines.insert(at, line);
        }
        6 => {
            let other = chance.below(count);
            lines.swap(some, other);
        }
        7 => chance.shuffle(&mut lines),
        // One field becomes a number at a limit, or no number.
        8..=10 => lines[some] = odd_line(chance, &lines[some]),
        // At the limit of bytes, or beyond.
        11 => {
            let length = chance.pick(&[32_767, 32_768, 32_769, 32_769, 40_000]);
            file.resize(length, b'\n');
            return file;
        }
        // Something behind z, or no z.
        12 => lines.push(chance.pick(&[&b"z,1\n"[..], b"x", b"\n", b"t,1,d,0,0\n", b"m,0\n"]).to_vec()),
        13 => {
            lines.pop();
        }
        // Too many lines of one kind, or just as many as fit.
        14 => return too_many(chance),
        // What the lines say together.
        15 => return not_associative(chance),
        16 => return ring(chance),
        // The silent action where it must not be.
        17 => return silent_used(chance, lines),
        // A pair, an equation or a term once more.
        18 => return said_before(chance, lines),
        // A wrong number of a term, an operand or a start.
        _ => return wrong_number(chance, lines),
    }
    lines.concat()
}

/// One field of the line becomes odd.
fn odd_line(chance: &mut Chance, line: &[u8]) -> Vec<u8> {
    let body = line.strip_suffix(b"\n").unwrap_or(line);
    let mut fields: Vec<Vec<u8>> = body.split(|&byte| byte == b',').map(<[u8]>::to_vec).collect();
    let at = chance.below(fields.len());
    fields[at] = chance.pick(&ODD_FIELDS).as_bytes().to_vec();
    let mut line = fields.join(&b',');
    line.push(b'\n');
    line
}

/// Where the c lines end, where the e and f lines end, and where z is, in a list of lines.
fn parts(lines: &[Vec<u8>]) -> (usize, usize, usize) {
    let begins = |letters: &'static [u8]| move |line: &&Vec<u8>| line.first().is_some_and(|l| letters.contains(l));
    let joins = lines.iter().filter(begins(b"mc")).count();
    let equations = joins + lines.iter().filter(begins(b"ef")).count();
    let terms = equations + lines.iter().filter(begins(b"t")).count();
    (joins.min(lines.len()), equations.min(lines.len()), terms.min(lines.len()))
}

fn too_many(chance: &mut Chance) -> Vec<u8> {
    let over = chance.below(3);
    let mut text = String::from("m,256\n");
    match chance.below(3) {
        0 => {
            for index in 0..31 + over {
                text += &format!("c,{},{},{}\n", 1 + index % 8, 9 + index / 8, 40 + chance.below(20));
            }
        }
        1 => {
            for index in 0..1_023 + over {
                let (x, action) = (index % 256, 1 + index / 256);
                text += &if chance.one_in(2) { format!("e,{x},{action},0\n") } else { format!("f,{x},{action}\n") };
            }
        }
        _ => {
            text += "t,1,d,0,0\nt,2,a,1,0\n";
            for n in 3..=255 + over {
                let (p, q) = (1 + (n - 3) / 16 % 16, 1 + (n - 3) % 16);
                text += &format!("t,{n},+,{},{}\n", p.min(n - 1), if p > n - 1 || q > n - 1 { 1 } else { q });
            }
            // Terms said twice are mended by a set that is each term's own.
            let mut known = HashSet::new();
            let mut mended = String::new();
            for line in text.lines() {
                let fields: Vec<&str> = line.split(',').collect();
                if fields[0] == "t" && !known.insert(fields[2..].join(",")) {
                    let n: u64 = fields[1].parse().unwrap();
                    mended += &format!("t,{n},b,1,{:016x}\n", n * 2);
                } else {
                    mended += &format!("{line}\n");
                }
            }
            text = mended;
        }
    }
    if !text.contains("\nt,") {
        text += "t,1,d,0,0\n";
    }
    text += "z,1\n";
    text.into_bytes()
}

/// A file whose lines join by chance; most of them are not associative.
fn not_associative(chance: &mut Chance) -> Vec<u8> {
    let size = if chance.one_in(4) { Size::Middle } else { Size::Small };
    let mut tables = valid_tables(chance, size);
    let mut named: HashSet<(u8, u8)> = tables.lines.iter().map(|&(a, b, _)| (a.min(b), a.max(b))).collect();
    for _ in 0..chance.between(1, 4) {
        let (a, b, r) = (chance.between(1, 6) as u8, chance.between(1, 6) as u8, chance.between(1, 6) as u8);
        if tables.lines.len() < 32 && named.insert((a.min(b), a.max(b))) {
            tables.lines.push((a, b, r));
        }
    }
    write(&tables)
}

/// A file with silent lines in a ring, or all but one of them.
fn ring(chance: &mut Chance) -> Vec<u8> {
    let mut tables = valid_tables(chance, Size::Small);
    tables.variables = tables.variables.max(chance.between(1, 256));
    let length = chance.between(1, tables.variables.min(20));
    let mut members: Vec<usize> = (0..tables.variables).collect();
    chance.shuffle(&mut members);
    let left_out = if chance.one_in(4) { chance.below(length) } else { length };
    let mut known: HashSet<Equation> = tables.equations.iter().copied().collect();
    for index in 0..length {
        let equation = Equation::Becomes(members[index] as u8, 0, members[(index + 1) % length] as u8);
        if index != left_out && known.insert(equation) {
            tables.equations.push(equation);
        }
    }
    chance.shuffle(&mut tables.equations);
    debug_assert!(left_out < length || silent_ring(&tables.equations));
    write(&tables)
}

fn silent_used(chance: &mut Chance, mut lines: Vec<Vec<u8>>) -> Vec<u8> {
    let (joins, _, terms) = parts(&lines);
    match chance.below(3) {
        0 => lines.insert(joins, b"c,0,1,2\n".to_vec()),
        1 => lines.insert(joins, chance.pick(&[b"c,62,0,1\n", b"c,1,63,0\n"]).to_vec()),
        _ => {
            let (_, equations, _) = parts(&lines);
            let line = format!("t,{},{},1,{:016x}\n", 1 + terms - equations, chance.pick(&["b", "h"]), chance.next() | 1);
            lines.insert(terms, line.into_bytes());
        }
    }
    lines.concat()
}

/// One line of c, e, f or t is said again behind the last of its kind; a pair in the other order too.
fn said_before(chance: &mut Chance, mut lines: Vec<Vec<u8>>) -> Vec<u8> {
    let (joins, equations, terms) = parts(&lines);
    let at = chance.below(lines.len());
    let line = String::from_utf8_lossy(&lines[at]).trim_end().to_string();
    let fields: Vec<&str> = line.split(',').collect();
    match fields.as_slice() {
        ["c", a, b, r] => {
            let line = if chance.one_in(2) { format!("c,{b},{a},{r}\n") } else { format!("c,{a},{b},1\n") };
            lines.insert(joins, line.into_bytes());
        }
        ["e" | "f", ..] => lines.insert(equations, format!("{line}\n").into_bytes()),
        ["t", _, sign, p, q] => {
            lines.insert(terms, format!("t,{},{sign},{p},{q}\n", 1 + terms - equations).into_bytes())
        }
        _ => {
            let again = lines[at].clone();
            lines.insert(at, again);
        }
    }
    lines.concat()
}

fn wrong_number(chance: &mut Chance, mut lines: Vec<Vec<u8>>) -> Vec<u8> {
    let (_, equations, terms) = parts(&lines);
    let given = terms - equations;
    let line = match chance.below(4) {
        0 => format!("t,{},d,0,0\n", chance.pick(&[0, given, given + 2, given + 65_537])),
        1 => format!("t,{},{},{},1\n", given + 1, chance.pick(&["+", ".", "m", "l", "j"]), given + 1),
        2 => format!("t,{},{},0,{:016x}\n", given + 1, chance.pick(&["b", "h"]), chance.next() & !1),
        _ => format!("z,{}\n", chance.pick(&[0, given + 1, given + 65_536])),
    };
    lines.insert(terms, line.into_bytes());
    lines.concat()
}
