//! The paper's sheet A and list B.

use crate::event::Event;

pub const SHEET_A: &[u8; 116] = b"\
CKT\x03\x01\0\0\0\x18\0\0\0\x40\0\0\0\x58\0\0\0\x1c\0\0\0\
\x01\x00\x01\0\x01\0\0\0\
\x01\x02\x01\0\x02\0\0\0\
\x02\x01\x00\0\x01\0\0\0\
\x01\x01\x00\0\x03\0\0\0\
\x02\x01\x02\0\x02\0\0\0\
\x01\x01\x00\0\x04\0\0\0\
\x02\x00\x01\0\x03\0\0\0\
\x02\x00\x01\0\x04\0\0\0\
\x01\0\0\0\x01\0\
\x04\0\0\0\x01\0\
\x03\0\0\0\x01\0\x02\0\
\x06\0\0\0\x04\0\x01\0";

pub const PROCESSES_OF_A: usize = 3;

pub fn list_a() -> &'static [u8] {
    &SHEET_A[24..88]
}

pub const LISTING_OF_A: &str = "\
events 8 processes 3 entries 6
0 S 0 1 1 1 1 0 0
1 S 2 1 2 4 0 0 1
2 R 1 0 1 0 1 1 0
3 S 1 0 3 3 1 2 0
4 R 1 2 2 0 1 3 1
5 S 1 0 4 6 1 4 1
6 R 0 1 3 0 2 2 0
7 R 0 1 4 0 3 4 1
";

/// LC1 and LC2 (Dragoni, "Logical Time") along list A.
pub const LAMPORTS_OF_A: [u16; 8] = [1, 1, 2, 3, 4, 5, 4, 6];

pub const PROCESSES_OF_B: usize = 2;

/// Four internal events and a send by process 0; process 1 receives it and sends 2 and then 3 back.
pub fn events_of_b() -> Vec<Event> {
    let mut events = vec![Event::internal(0); 4];
    events.push(Event::send(0, 1, 1));
    events.push(Event::receive(1, 0, 1));
    events.push(Event::send(1, 0, 2));
    events.push(Event::send(1, 0, 3));
    events
}
