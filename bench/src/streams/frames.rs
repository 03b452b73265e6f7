//! Frames of the probe as they are put together, with the traffic that they drive.

use crate::image::Image;
use crate::limits::{ACCOUNTS, ROOM};
use crate::message::{self, Head, Message};
use crate::probe::WIDEST;
use crate::random::Random;
use crate::register::RegisterRules;
use crate::rules::Document;
use crate::streams::traffic::Traffic;

/// Frames so far, with the traffic that they drive.
pub struct Frames {
    pub bytes: Vec<u8>,
    pub traffic: Traffic,
}

impl Frames {
    /// No frames yet, traffic on so many accounts.
    pub fn on(random: Random, accounts: usize) -> Frames {
        Frames { bytes: Vec::new(), traffic: Traffic::on(random, accounts) }
    }

    /// Adds a frame.
    pub fn frame(&mut self, code: u8, parts: &[&[u8]]) {
        let payload = parts.concat();
        self.bytes.push(code);
        self.bytes.extend((payload.len() as u16).to_be_bytes());
        self.bytes.extend(payload);
    }

    /// Frame 1, and the traffic's register goes on by it.
    pub fn call(&mut self, room: usize, message: &[u8]) {
        self.frame(1, &[&(room as u16).to_be_bytes(), message]);
        if room <= WIDEST {
            self.traffic.receive(message, room);
        }
    }

    /// Frame 2.
    pub fn outcome(&mut self, account: u16, number: u32) {
        self.frame(2, &[&account.to_be_bytes(), &number.to_be_bytes()]);
    }

    /// Frame 5, and the traffic's register goes on by it.
    pub fn disturb(&mut self, account: u16, (field, place, value): (u8, u8, u32)) {
        self.frame(5, &[&account.to_be_bytes(), &[field, place], &value.to_be_bytes()]);
        if usize::from(account) < ACCOUNTS {
            let mut image = self.image(account);
            if image.disturb(field, place, value) {
                self.traffic.register.put(usize::from(account), image, &Document);
            }
        }
    }

    /// Frame 6.
    pub fn show(&mut self, account: u16) {
        self.frame(6, &[&account.to_be_bytes()]);
    }

    /// Frame 64.
    pub fn order(&mut self, account: u16) {
        self.frame(64, &[&account.to_be_bytes()]);
    }

    /// Frame 65.
    pub fn run(&mut self, room: usize, messages: &[u8]) {
        self.frame(65, &[&(room as u16).to_be_bytes(), messages]);
    }

    /// Frame 68 with an amount, which is not looked at where the kind has none; the traffic's register goes on by it.
    pub fn single(&mut self, message: &Message, amount: u32) {
        let Head { transaction, account, second } = message.head();
        let head = [&account.to_be_bytes()[..], &[message.kind()]].concat();
        self.frame(68, &[&head, &transaction.to_be_bytes(), &second.to_be_bytes(), &amount.to_be_bytes()]);
        if usize::from(account) < ACCOUNTS {
            let _ = Document.single(&mut self.traffic.register, message);
        }
    }

    /// The stored form of an account.
    pub fn image(&self, account: u16) -> Image {
        self.traffic.register.image(usize::from(account))
    }

    /// The next message in a call, or so many times in a hundred as a single step; often a look at the account.
    pub fn step(&mut self, singles: u64) {
        let message = self.traffic.compose();
        if self.traffic.random.chance(singles) {
            let none = message::length(message.kind()) == Some(message::HEAD);
            let amount = if none { self.traffic.random.pick(&[0, 1, u32::MAX]) } else { message.amount() };
            self.single(&message, amount);
        } else {
            let room = self.traffic.random.pick(&[ROOM, ROOM, ROOM, ROOM + 1, 500, WIDEST]);
            self.call(room, &message.bytes());
        }
        self.look(message.head().account);
    }

    /// Now and then a show, an outcome question, or the question whether the account is in order.
    pub fn look(&mut self, account: u16) {
        if self.traffic.random.chance(30) {
            self.show(account);
        }
        if self.traffic.random.chance(20) {
            self.question(account);
        }
        if self.traffic.random.chance(15) {
            self.order(account);
        }
    }

    /// An outcome question below, at or above 2 to the power u.
    pub fn question(&mut self, account: u16) {
        let kept = self.traffic.register.account(usize::from(account % 16));
        let outcomes = kept.map_or(1, |kept| kept.outcomes().len() as u64);
        let random = &mut self.traffic.random;
        let number = match random.below(8) {
            0 => outcomes,
            1 => outcomes - 1,
            2 => random.number(),
            3 => random.pick(&[256, 1 << 8, 1 << 16, u64::from(u32::MAX)]),
            _ => random.below(outcomes),
        };
        let account = if random.chance(4) { random.pick(&[16, 256, 65_535]) } else { account };
        self.outcome(account, number as u32);
    }
}
