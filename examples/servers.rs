//! Several servers share one register behind a lock: each takes the next message of standard input and sends it, until
//! none is left. What is printed is what `examples/keeper.c` prints.
//!
//! From the root of the repository:
//!   tools/build live
//!   cargo build --release --offline --manifest-path bindings/rust/Cargo.toml --example servers
//!   samples/messages encode < samples/first.lines | bindings/rust/target/release/examples/servers
//!
//! A call never waits and locks no account; the lock here is for the memory that the servers share. The queue of
//! messages and the text stand behind the same lock, so that entries are printed in the order in which they were
//! written.

use nacozteya::{lines, Life, Register, ROOM};
use std::io::{Read, Write};
use std::process::ExitCode;
use std::sync::Mutex;
use std::thread;

/// The servers.
const SERVERS: usize = 4;

/// What the servers share.
struct Shared {
    register: Register,
    /// The messages, and how far they are passed; at the end nothing more is read.
    messages: Vec<u8>,
    at: usize,
    met: u64,
    refused: u64,
    text: String,
}

impl Shared {
    /// Sends the next message; false where there is none.
    fn send_next(&mut self) -> bool {
        let Some(kind) = self.messages.get(self.at).copied() else {
            return false;
        };
        self.met += 1;
        let mut entries = [0; ROOM];
        match self.register.call(&self.messages[self.at..], &mut entries) {
            Ok(taken) => {
                self.text.extend(lines(&entries[..taken.written]));
                self.at += taken.consumed;
            }
            Err(refusal) => {
                self.refused += 1;
                self.text += &format!("refused {}\n", refusal.number());
                // behind 1 and 2 nothing more is read, behind any other the next message starts where this one ends
                let stops = refusal.number() <= 2;
                self.at = if stops {
                    self.messages.len()
                } else {
                    self.at + message_length(kind)
                };
            }
        }
        true
    }

    /// The state of each account, with no undecided event applied.
    fn accounts(&self) -> String {
        let states = (0..Register::ACCOUNTS as u16)
            .filter_map(|account| Some((account, self.register.outlook(account, 0).ok()?)));
        let line = |(account, outlook): (u16, nacozteya::Outlook)| {
            let life = match outlook.life {
                Life::New => "new",
                Life::Opened => "opened",
                Life::Closed => "closed",
            };
            format!("account {account} {life} {}\n", outlook.balance)
        };
        states.map(line).collect()
    }
}

/// The whole length of a message of a kind 1 to 6.
fn message_length(kind: u8) -> usize {
    if kind < 4 {
        15
    } else {
        11
    }
}

/// One server: it sends messages until none is left.
fn serve(shared: &Mutex<Shared>) {
    while shared.lock().is_ok_and(|mut shared| shared.send_next()) {
        thread::yield_now();
    }
}

fn main() -> ExitCode {
    let mut messages = Vec::new();
    let _ = std::io::stdin().read_to_end(&mut messages);
    let text = String::from("register 1\n");
    let shared = Mutex::new(Shared {
        register: Register::new(),
        messages,
        at: 0,
        met: 0,
        refused: 0,
        text,
    });
    thread::scope(|scope| {
        for _ in 0..SERVERS {
            scope.spawn(|| serve(&shared));
        }
    });
    let Ok(shared) = shared.into_inner() else {
        return ExitCode::FAILURE;
    };
    let text = format!(
        "{}end {} {}\n{}",
        shared.text,
        shared.met,
        shared.refused,
        shared.accounts()
    );
    match std::io::stdout().write_all(text.as_bytes()) {
        Ok(()) => ExitCode::SUCCESS,
        Err(_) => ExitCode::FAILURE,
    }
}
