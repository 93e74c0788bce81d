//! The whole output of the program `unfold`.

use super::{Shown, Tally};
use crate::comparer::unfolding::unfold_program;
use crate::inputs::damages::damaged_file;
use crate::inputs::files::{file_with_states, file_with_steps, valid_file};
use crate::inputs::Chance;
use std::process::Command;

pub fn program_case(chance: &mut Chance, tally: &mut Tally) {
    let file = match chance.below(40) {
        0 => file_with_states(chance.between(1_022, 1_026)),
        1 => file_with_steps(chance.between(4_094, 4_098)),
        2..=20 => valid_file(chance),
        _ => damaged_file(chance),
    };
    let expected = unfold_program(&file);
    let folder = std::env::temp_dir().join(format!("dimityrock-{}", std::process::id()));
    std::fs::create_dir_all(&folder).expect("a folder for model.txt");
    std::fs::write(folder.join("model.txt"), &file).expect("model.txt");
    let program = std::env::var("UNFOLD").expect("UNFOLD names the program unfold");
    let output = Command::new(program).current_dir(&folder).output().expect("the program unfold");
    std::fs::remove_dir_all(&folder).expect("the folder removed");
    tally.agree("how the program ended", output.status.code(), Some(0), &Shown(&file));
    tally.agree("what the program wrote", Shown(&output.stdout), Shown(&expected), &Shown(&file));
    if expected.starts_with(b"r,") {
        let number = String::from_utf8_lossy(&expected[2..]).split(',').next().and_then(|n| n.parse().ok());
        tally.refused(number.expect("the number of a refusal"));
        tally.met("the program printed a refusal");
    } else {
        tally.met("the program printed a table");
    }
}
