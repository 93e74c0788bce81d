//! The one text of given tables. (docs/FORMAT.md)

use super::reading::{Equation, File, Term};

pub fn write(file: &File) -> Vec<u8> {
    let mut text = format!("m,{}\n", file.variables);
    for &(a, b, r) in &file.lines {
        text += &format!("c,{a},{b},{r}\n");
    }
    for &equation in &file.equations {
        text += &match equation {
            Equation::Becomes(x, a, y) => format!("e,{x},{a},{y}\n"),
            Equation::Ends(x, a) => format!("f,{x},{a}\n"),
        };
    }
    for (index, &term) in file.terms.iter().enumerate() {
        let said = match term {
            Term::Action(a) => format!("a,{a},0"),
            Term::Deadlock => "d,0,0".to_string(),
            Term::Variable(x) => format!("v,{x},0"),
            Term::Choice(x, y) => format!("+,{x},{y}"),
            Term::Sequence(x, y) => format!(".,{x},{y}"),
            Term::Merge(x, y) => format!("m,{x},{y}"),
            Term::LeftMerge(x, y) => format!("l,{x},{y}"),
            Term::CommunicationMerge(x, y) => format!("j,{x},{y}"),
            Term::Block(x, set) => format!("b,{x},{set:016x}"),
            Term::Hide(x, set) => format!("h,{x},{set:016x}"),
        };
        text += &format!("t,{},{said}\n", index + 1);
    }
    text += &format!("z,{}\n", file.start);
    text.into_bytes()
}
