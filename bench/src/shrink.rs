//! A stream that shows a difference, made short: pieces taken out, amounts made plain, bytes made 0.

use crate::readable::pieces;
use crate::subject::Target;
use std::time::{Duration, Instant};

/// How long one difference is shrunk.
const PATIENCE: Duration = Duration::from_secs(8);

/// The shortest stream found for which the test still holds.
pub fn shrink(target: Target, bytes: &[u8], differs: impl Fn(&[u8]) -> bool) -> Vec<u8> {
    let search = Search { until: Instant::now() + PATIENCE, differs };
    let kept = search.shortest(pieces(target, bytes));
    let kept = search.other_amounts(target, kept);
    search.plainer(target, kept).concat()
}

/// Amounts that are tried in the place of others.
const AMOUNTS: [u32; 6] = [1_000_000, 1_000_001, 100, 50, 1, 0];

/// A search with its test and its end.
struct Search<F> {
    until: Instant,
    differs: F,
}

impl<F: Fn(&[u8]) -> bool> Search<F> {
    /// Whether the time is up.
    fn over(&self) -> bool {
        Instant::now() > self.until
    }

    /// Whether these pieces show the difference still.
    fn shows(&self, pieces: &[Vec<u8>]) -> bool {
        !self.over() && (self.differs)(&pieces.concat())
    }

    /// Pieces taken out until none is to spare.
    fn shortest(&self, pieces: Vec<Vec<u8>>) -> Vec<Vec<u8>> {
        let mut kept = self.shorter_front(pieces);
        loop {
            let before = kept.len();
            kept = self.fewer(kept);
            if kept.len() == before || self.over() {
                return kept;
            }
        }
    }

    /// Other amounts, where the stream gets shorter by them.
    fn other_amounts(&self, target: Target, mut kept: Vec<Vec<u8>>) -> Vec<Vec<u8>> {
        let (at, whole) = match target {
            Target::Probe => (16, 20),
            Target::Live => (17, 21),
            _ => (11, 15),
        };
        let mut piece = 0;
        while piece < kept.len().min(200) && !self.over() {
            let tries = AMOUNTS.iter().filter(|_| kept[piece].len() >= whole).find_map(|amount| {
                let mut changed = kept.clone();
                changed[piece][at..whole].copy_from_slice(&amount.to_be_bytes());
                let shorter = self.shows(&changed).then(|| self.shortest(changed))?;
                (shorter.len() < kept.len()).then_some(shorter)
            });
            match tries {
                Some(shorter) => (kept, piece) = (shorter, 0),
                None => piece += 1,
            }
        }
        kept
    }

    /// The shortest beginning that shows it, by halving.
    fn shorter_front(&self, pieces: Vec<Vec<u8>>) -> Vec<Vec<u8>> {
        let (mut low, mut high) = (0, pieces.len());
        while low < high {
            let middle = (low + high) / 2;
            if self.shows(&pieces[..middle]) {
                high = middle;
            } else {
                low = middle + 1;
            }
        }
        pieces[..high].to_vec()
    }

    /// Runs of pieces taken out, long runs first.
    fn fewer(&self, mut kept: Vec<Vec<u8>>) -> Vec<Vec<u8>> {
        let mut run = kept.len().div_ceil(2).max(1);
        loop {
            let mut at = 0;
            while at < kept.len() {
                let mut without = kept.clone();
                without.drain(at..(at + run).min(kept.len()));
                if self.shows(&without) {
                    kept = without;
                } else {
                    at += run;
                }
            }
            if run == 1 {
                return kept;
            }
            run = run.div_ceil(2);
        }
    }

    /// Bytes of the bodies made 0 where that leaves the difference.
    fn plainer(&self, target: Target, mut kept: Vec<Vec<u8>>) -> Vec<Vec<u8>> {
        let head = if matches!(target, Target::Probe | Target::Live) { 3 } else { 1 };
        if kept.iter().map(Vec::len).sum::<usize>() > 2_000 {
            return kept;
        }
        for piece in 0..kept.len() {
            for at in head..kept[piece].len() {
                let before = std::mem::take(&mut kept[piece][at]);
                if before != 0 && !self.shows(&kept) {
                    kept[piece][at] = before;
                }
            }
        }
        kept
    }
}
