//! Event records of 8 bytes, and the checks that look at one record alone.

use crate::Check;

pub const RECORD_SIZE: usize = 8;
pub const MOST_EVENTS: usize = 512;
pub const MOST_LIST_BYTES: usize = 4_096;

pub const INTERNAL: u8 = 0;
pub const SEND: u8 = 1;
pub const RECEIVE: u8 = 2;

/// A record as it stands in the list, whatever it holds.
#[derive(Clone, Copy, Debug, PartialEq, Eq)]
pub struct Event {
    pub kind: u8,
    pub process: u8,
    pub peer: u8,
    pub spare: [u8; 3],
    pub message: u16,
}

impl Event {
    fn new(kind: u8, process: u8, peer: u8, message: u16) -> Self {
        Event {
            kind,
            process,
            peer,
            spare: [0; 3],
            message,
        }
    }

    pub fn internal(process: u8) -> Self {
        Event::new(INTERNAL, process, 0, 0)
    }

    pub fn send(process: u8, addressee: u8, message: u16) -> Self {
        Event::new(SEND, process, addressee, message)
    }

    pub fn receive(process: u8, sender: u8, message: u16) -> Self {
        Event::new(RECEIVE, process, sender, message)
    }

    pub fn from_record(record: &[u8]) -> Self {
        Event {
            kind: record[0],
            process: record[1],
            peer: record[2],
            spare: [record[3], record[6], record[7]],
            message: u16::from_le_bytes([record[4], record[5]]),
        }
    }

    pub fn record(&self) -> [u8; RECORD_SIZE] {
        let [low, high] = self.message.to_le_bytes();
        let [after_peer, after_message, last] = self.spare;
        [
            self.kind,
            self.process,
            self.peer,
            after_peer,
            low,
            high,
            after_message,
            last,
        ]
    }

    /// Checks 10 to 13, in their order.
    pub fn check_form(&self, n: usize) -> Result<(), Check> {
        if self.kind > RECEIVE {
            return Err(Check::Kind);
        }
        if usize::from(self.process) >= n {
            return Err(Check::Process);
        }
        if !self.peer_is_right(n) {
            return Err(Check::Peer);
        }
        let message_is_right = (self.message == 0) == (self.kind == INTERNAL);
        if self.spare != [0; 3] || !message_is_right {
            return Err(Check::SpareOrMessage);
        }
        Ok(())
    }

    fn peer_is_right(&self, n: usize) -> bool {
        if self.kind == INTERNAL {
            self.peer == 0
        } else {
            usize::from(self.peer) < n && self.peer != self.process
        }
    }
}

pub fn events_of(list: &[u8]) -> impl Iterator<Item = Event> + '_ {
    list.chunks_exact(RECORD_SIZE).map(Event::from_record)
}

pub fn list_of(events: &[Event]) -> Vec<u8> {
    events.iter().flat_map(Event::record).collect()
}
