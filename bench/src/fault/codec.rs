//! What wrong versions do otherwise in the readers and the writer.

use super::list::{Fault, Wrong};
use crate::entry::{Entry, EntryRules, NOTED, REJECTED, UNEXPLAINED};
use crate::event::Event;
use crate::limits::ACCOUNTS;
use crate::message::{length, Message, MessageRules, HEAD};
use crate::outcomes::Vote;
use crate::rules::Document;

impl MessageRules for Wrong {
    fn read(&self, bytes: &[u8]) -> Result<(Message, usize), u8> {
        let listed = bytes.first().is_some_and(|kind| length(*kind).is_some());
        match (self.0, bytes) {
            (Fault::ShortBeforeKind, bytes) if bytes.len() < HEAD => Err(1),
            (Fault::AccountBeforeShort, [_, _, _, _, _, high, low, ..])
                if listed && usize::from(u16::from_be_bytes([*high, *low])) >= ACCOUNTS =>
            {
                Err(3)
            }
            (Fault::AccountLowByte, bytes) if bytes.len() > 5 => {
                let mut low = bytes.to_vec();
                low[5] = 0;
                Document.read(&low)
            }
            (Fault::AfterWholeLookedAt, bytes) => Document.read(bytes).map(|(message, _)| (message, bytes.len())),
            _ => Document.read(bytes),
        }
    }

    fn write(&self, message: &Message, buffer: &mut [u8]) -> Result<usize, u8> {
        match (self.0, message) {
            (Fault::WriterCloseAmount, Message::Request { request, .. }) if request.event == Event::Close => {
                Document.write(message, &mut [0; HEAD])?;
                let longer = buffer.get_mut(..HEAD + 4).ok_or(4)?;
                longer.fill(0);
                Document.write(message, longer)?;
                Ok(longer.len())
            }
            (Fault::WriterRoomFirst, _) if buffer.len() < message.bytes().len() => Err(4),
            _ => Document.write(message, buffer),
        }
    }
}

impl EntryRules for Wrong {
    fn write_entry(&self, entry: &Entry, account: u16) -> Vec<u8> {
        let mut bytes = Document.write_entry(entry, account);
        if self.0 == Fault::ReasonBeforeCount && bytes[0] == REJECTED {
            bytes[16..].rotate_right(1);
        }
        bytes
    }

    fn entry_line(&self, entry: &Entry, account: u16) -> String {
        let line = Document.entry_line(entry, account);
        let mut words: Vec<&str> = line.split(' ').collect();
        match (self.0, entry.kind()) {
            (Fault::LineReasonFirst, REJECTED) => words.swap(6, 7),
            (Fault::LineWithoutReason, REJECTED) => words.truncate(7),
            _ => {}
        }
        words.join(" ")
    }

    fn read_entry(&self, bytes: &[u8]) -> Option<(Entry, u16, usize)> {
        let mut read = bytes.to_vec();
        if self.0 == Fault::EntryCloseAmount && read.len() >= 16 && read[0] != NOTED && read[11] == Event::Close.kind()
        {
            read[12..16].fill(0);
        }
        let (mut entry, account, length) = Document.read_entry(&read)?;
        match (self.0, &mut entry) {
            (Fault::OldKindUnread, entry) if entry.kind() == UNEXPLAINED => return None,
            (Fault::ReasonChecked, Entry::Voted { reason: Some(0 | 5..), .. }) => return None,
            (Fault::OldKindAsNew, Entry::Voted { vote: Vote::Rejected, reason, .. }) => *reason = reason.or(Some(0)),
            _ => {}
        }
        Some((entry, account, length))
    }
}
