//! The program: messages in, lines out.

use crate::limits::{LONGEST, ROOM};
use crate::register::Register;
use crate::run::{Ran, RunRules};

/// The whole output of the program on an input.
pub fn text(input: &[u8], rules: &impl RunRules) -> String {
    let mut text = String::from("register 1\n");
    if input.len() > LONGEST {
        return text + "too long\n";
    }
    let mut register = Register::fresh();
    let Ran { met, refused, .. } = rules.pass(input, |rest| {
        let taken = rules.take(&mut register, rest, ROOM);
        let taken = taken.inspect_err(|number| text += &format!("refused {number}\n"))?;
        for entry in &taken.entries {
            text += &rules.entry_line(entry, taken.account);
            text.push('\n');
        }
        Ok(taken.consumed)
    });
    text + &format!("end {met} {refused}\n")
}
