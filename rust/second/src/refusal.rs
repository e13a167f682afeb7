//! The refusal numbers of the paper's table and of the later requests, and a refusal with its position.

#[derive(Clone, Copy, Debug, PartialEq, Eq, PartialOrd, Ord)]
#[repr(u8)]
pub enum Check {
    SheetLength = 1,
    Letters = 2,
    Version = 3,
    ProcessCount = 4,
    HeaderSpare = 5,
    EventPart = 6,
    StampPart = 7,
    ListLength = 8,
    WorkLength = 9,
    Kind = 10,
    Process = 11,
    Peer = 12,
    SpareOrMessage = 13,
    NumberUsed = 14,
    NotWaiting = 15,
    NotInFront = 16,
    Stamp = 18,
    LeftOver = 19,
    Position = 20,
    OutputLength = 21,
    NotBefore = 22,
    PupilsLines = 30,
}

impl Check {
    pub fn number(self) -> u8 {
        self as u8
    }

    /// "A refusal returns its number and a position: the event's where an event or its stamp is refused".
    pub fn at_event(self, position: usize) -> Refusal {
        Refusal {
            check: self,
            position,
        }
    }

    /// "otherwise 0".
    pub fn of_no_event(self) -> Refusal {
        self.at_event(0)
    }
}

#[derive(Clone, Copy, Debug, PartialEq, Eq)]
pub struct Refusal {
    pub check: Check,
    pub position: usize,
}
