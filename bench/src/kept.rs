//! What `examples/keeper.c` and `examples/servers.rs` print: the program's text for input of any length, and then the
//! state of each account.

use crate::limits::{ACCOUNTS, ROOM};
use crate::register::Register;
use crate::run::{Ran, RunRules};

/// The whole output on an input.
pub fn text(input: &[u8], rules: &impl RunRules) -> String {
    let mut text = String::from("register 1\n");
    let mut register = Register::fresh();
    let Ran { met, refused, .. } = rules.pass(input, |rest| {
        let taken = rules.take(&mut register, rest, ROOM);
        let taken = taken.inspect_err(|number| text += &format!("refused {number}\n"))?;
        for entry in &taken.entries {
            text += &format!("{}\n", rules.entry_line(entry, taken.account));
        }
        Ok(taken.consumed)
    });
    text += &format!("end {met} {refused}\n");
    for account in 0..ACCOUNTS {
        if let Ok((state, _)) = register.outcome(account as u16, 0, rules) {
            text += &format!("account {account} {} {}\n", state.life.name(), state.balance);
        }
    }
    text
}
