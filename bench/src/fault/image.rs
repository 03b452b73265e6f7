//! What wrong versions do otherwise with an account in words.

use super::list::{Fault, Wrong};
use crate::image::Image;
use crate::live::LiveRules;
use crate::words::{account_of, WordRules, ACCOUNT, HEAD, PLACE};

impl WordRules for Wrong {
    fn account_of(&self, words: &[u32]) -> Option<Image> {
        let mut words = words[..words.len().min(ACCOUNT)].to_vec();
        match self.0 {
            Fault::ShortImageFresh => words.resize(ACCOUNT, 0),
            Fault::LifeAboveTwo => words.iter_mut().take(1).for_each(|life| *life = (*life).min(2)),
            Fault::EventAboveThree => each(&mut words, |place| place[2] = place[2].min(3)),
            Fault::CloseWithAmount => each(&mut words, |place| place[3] *= u32::from(place[2] != 3)),
            Fault::DecisionAboveOne => each(&mut words, |place| place[4] = place[4].min(1)),
            _ => {}
        }
        account_of(words.get(..ACCOUNT)?)
    }
}

/// Changes every place.
fn each(words: &mut [u32], change: impl Fn(&mut [u32])) {
    words.get_mut(HEAD..).unwrap_or_default().chunks_exact_mut(PLACE).for_each(change);
}

impl LiveRules for Wrong {
    fn live_call(&self, image: &mut [u32], message: &[u8], entries: &mut [u8]) -> Result<(usize, usize), u8> {
        let before = image.to_vec();
        let called = crate::live::call(image, message, entries, self);
        match (self.0, called) {
            (Fault::NeighbourTouched, Ok(_)) => {
                let after = image.iter().rposition(|word| *word != 0).map_or(0, |at| (at / ACCOUNT + 1) * ACCOUNT);
                image.iter_mut().skip(after).take(1).for_each(|word| *word = 1);
            }
            (Fault::RefusalTouches, Err(number @ 6..)) => {
                image.iter_mut().zip(before).take(1).for_each(|(word, old)| *word = old ^ u32::from(number));
            }
            _ => {}
        }
        called
    }
}
