//! What wrong versions do otherwise in the frames of the probe and in what the targets print.

use super::call::unused;
use super::list::{Fault, Wrong};
use super::memory::{Kept, Remembers};
use crate::entry::EntryRules;
use crate::exported::{self, told};
use crate::image::Place;
use crate::limits::LONGEST;
use crate::order::{broken, Clause};
use crate::probe::{self, frame, ProbeRules};
use crate::register::Register;
use crate::rules::Rules;
use crate::{live, program};

impl ProbeRules for Wrong {
    fn frame(&self, register: &mut Register, code: u8, payload: &[u8]) -> Option<String> {
        let before = (self.0 == Fault::StepLeavesAccount).then(|| register.clone());
        let line = frame(register, code, payload, self);
        match (self.0, code, payload) {
            (Fault::CountsInAByte, 5, [high, low, field @ 2..=3, place, .., value]) if line.is_some() => {
                frame(register, 5, &[*high, *low, *field, *place, 0, 0, 0, *value], self)
            }
            (Fault::KindDropsAmount, 5, [high, low, 6, place, ..]) if line.is_some() => {
                frame(register, 5, &[*high, *low, 7, *place, 0, 0, 0, 0], self);
                line
            }
            (Fault::ShowsUsedOnly, 6, [0, at @ ..16]) => {
                let mut image = register.image(usize::from(*at));
                unused(&image).for_each(|place| image.places[place] = Place::BLANK);
                let mut shown = register.clone();
                shown.put(usize::from(*at), image, self);
                frame(&mut shown, 6, payload, self)
            }
            (Fault::OrderWithoutHeld, 64, [0, at @ ..16]) => {
                let alone = broken(&register.image(usize::from(*at)), self) == [Clause::OldestHeldStays];
                line.map(|line| if alone { "order yes".into() } else { line })
            }
            (Fault::LineOfEntryAlone, 67, bytes) => {
                let alone = self.read_entry(bytes).is_some_and(|read| read.2 == bytes.len());
                line.map(|line| if alone { line } else { "none".into() })
            }
            (Fault::RefusedStepCounts, 68, _) => {
                let refused = |line: &str| line.starts_with("refused").then(|| line.replace(" 0", " 1"));
                line.map(|line| refused(&line).unwrap_or(line))
            }
            (Fault::StepLeavesAccount, 68, _) => {
                before.into_iter().for_each(|before| *register = before);
                line
            }
            _ => line,
        }
    }
}

impl Rules for Wrong {
    fn program_text(&self, input: &[u8]) -> String {
        if self.0 == Fault::ReasonFromHolding {
            return Remembers(&Kept::default()).program_text(input);
        }
        if self.0 == Fault::TooLongEarly && input.len() == LONGEST {
            return "register 1\ntoo long\n".into();
        }
        program::text(input, self)
    }

    fn probe_text(&self, input: &[u8]) -> String {
        if self.0 == Fault::ReasonFromHolding {
            return Remembers(&Kept::default()).probe_text(input);
        }
        if self.0 == Fault::TooLongEarly && input.len() == LONGEST {
            return "probe 1\ntoo long\n".into();
        }
        let text = probe::text(input, self);
        match text.split_once("\ntorn\nend ") {
            Some((lines, _)) if self.0 == Fault::TornNotCounted => {
                format!("{lines}\ntorn\nend {}\n", lines.lines().count() - 1)
            }
            _ => text,
        }
    }

    fn live_text(&self, input: &[u8]) -> String {
        match self.0 {
            Fault::ReasonFromHolding => Remembers(&Kept::default()).live_text(input),
            _ => live::text(input, self),
        }
    }

    fn exported_text(&self, input: &[u8]) -> String {
        if self.0 == Fault::ReasonFromHolding {
            return Remembers(&Kept::default()).exported_text(input);
        }
        let mut kept = Register::fresh();
        told(input, |messages, entries, counts| {
            let fewer = self.0 == Fault::FourPlacesOrNone && counts.len() < 4;
            let counts = if fewer { &mut [] } else { counts };
            if self.0 != Fault::RegisterKept {
                kept = Register::fresh();
            }
            exported::run(messages, entries, counts, &mut kept, self)
        })
    }
}
