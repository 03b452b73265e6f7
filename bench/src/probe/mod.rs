//! The probe: frames in, lines out, by the protocol of its page.

mod lent;
mod first;
mod later;

pub use lent::WIDEST;

use crate::limits::LONGEST;
use crate::register::Register;
use crate::run::RunRules;

/// Frames as a whole.
pub trait ProbeRules: RunRules {
    /// The line of a frame, none where it is unknown.
    fn frame(&self, register: &mut Register, code: u8, payload: &[u8]) -> Option<String> {
        frame(register, code, payload, self)
    }
}

/// The whole output of the probe on an input.
pub fn text(input: &[u8], rules: &impl ProbeRules) -> String {
    let mut text = String::from("probe 1\n");
    if input.len() > LONGEST {
        return text + "too long\n";
    }
    let mut register = Register::fresh();
    let mut lines = 0;
    let mut rest = input;
    while !rest.is_empty() {
        let line = match split(rest) {
            Some((code, payload, after)) => {
                rest = after;
                rules.frame(&mut register, code, payload).unwrap_or("unknown".into())
            }
            None => {
                rest = &[];
                "torn".into()
            }
        };
        text += &line;
        text.push('\n');
        lines += 1;
    }
    text + &format!("end {lines}\n")
}

/// The first frame's code and payload, and what follows it; none where it is torn.
pub fn split(bytes: &[u8]) -> Option<(u8, &[u8], &[u8])> {
    let head = bytes.get(..3)?;
    let end = 3 + usize::from(u16::from_be_bytes([head[1], head[2]]));
    Some((head[0], bytes.get(3..end)?, &bytes[end..]))
}

/// The line of a frame, by its code.
pub fn frame(register: &mut Register, code: u8, payload: &[u8], rules: &impl ProbeRules) -> Option<String> {
    match code {
        0..64 => first::answer(register, code, payload, rules),
        64.. => later::answer(register, code, payload, rules),
    }
}
