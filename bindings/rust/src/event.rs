//! What a feed reports, and what links deliver.
use crate::error::Condition;
use crate::sys::{RawEvent, RawOutcome};

/// What the peer's newest frame brought.
#[derive(Clone, Copy, Debug, PartialEq, Eq)]
#[non_exhaustive]
pub enum Event {
    /// The connection is running: begin the session.
    Opened,
    /// The peer began its session.
    Begun,
    /// The peer offers a link: [`Endpoint::answer`](crate::Endpoint::answer) it.
    Offered { link: u32 },
    /// The peer answered our attach.
    Attached { link: u32 },
    /// The link is detached at both ends.
    Detached { link: u32 },
    /// A whole message waits on the link: [`Endpoint::take`](crate::Endpoint::take) it.
    Ready { link: u32 },
    /// Credit or a window changed: there may be room to send.
    Flow,
    /// The peer reported outcomes: [`Endpoint::learn`](crate::Endpoint::learn) them.
    Outcomes,
    /// The session ended, and with it all links.
    Ended,
    /// The peer broke a rule of the session or of a link, which was answered with an end or a detach. The number is that of docs/protocol.md.
    Violation(u32),
    /// The connection is closed.
    Closed,
}

impl Event {
    /// What an event of the library reports, if anything, with the phase before the feed.
    pub(crate) fn of(event: &RawEvent, before: Phase) -> Option<Event> {
        let link = event.link;
        Some(match (event.kind, event.frame) {
            _ if event.violation != 0 => Event::Violation(event.violation),
            _ if event.phase == 5 && before != Phase::Closed => Event::Closed,
            _ if event.phase == 3 && before != Phase::Running => Event::Opened,
            (2, _) => Event::Offered { link },
            (3, _) => Event::Attached { link },
            (4 | 10, _) => Event::Detached { link },
            (6, _) => Event::Ready { link },
            (_, 2) => Event::Begun,
            (_, 4) => Event::Flow,
            (_, 6) => Event::Outcomes,
            (_, 8) => Event::Ended,
            _ => return None,
        })
    }
}

/// Our end of a link.
#[derive(Clone, Copy, Debug, PartialEq, Eq)]
pub enum Role {
    Sender,
    Receiver,
}

/// How far a connection is.
#[derive(Clone, Copy, Debug, PartialEq, Eq)]
pub enum Phase {
    AwaitHeader,
    AwaitOpen,
    Running,
    Closing,
    Closed,
}

/// The state that we give to deliveries (part 3, 3.4).
#[derive(Clone, Copy, Debug, PartialEq, Eq)]
pub enum State<'a> {
    Received {
        section_number: u32,
        section_offset: u64,
    },
    Accepted,
    /// The message is invalid, with an error if there is one.
    Rejected(Option<&'a Condition>),
    Released,
    Modified {
        delivery_failed: bool,
        undeliverable_here: bool,
    },
}

impl<'a> State<'a> {
    pub(crate) fn to_raw(self) -> RawOutcome {
        let raw = RawOutcome::default();
        match self {
            State::Received { section_number, section_offset } => RawOutcome { state: 1, section_number, section_offset, ..raw },
            State::Accepted => RawOutcome { state: 2, ..raw },
            State::Rejected(_) => RawOutcome { state: 3, ..raw },
            State::Released => RawOutcome { state: 4, ..raw },
            State::Modified { delivery_failed, undeliverable_here } => RawOutcome { state: 5, delivery_failed, undeliverable_here, ..raw },
        }
    }

    pub(crate) fn condition(self) -> Option<&'a Condition> {
        match self {
            State::Rejected(condition) => condition,
            _ => None,
        }
    }
}

/// The state that the peer reported.
#[derive(Clone, Copy, Debug, PartialEq, Eq)]
pub enum Reported {
    Received,
    Accepted,
    Rejected,
    Released,
    Modified,
    /// A state that the standard does not define.
    Other,
}

impl Reported {
    pub(crate) fn of(number: u32) -> Option<Reported> {
        Some(match number {
            1 => Reported::Received,
            2 => Reported::Accepted,
            3 => Reported::Rejected,
            4 => Reported::Released,
            5 => Reported::Modified,
            6 => Reported::Other,
            _ => return None,
        })
    }
}

/// A message that was taken.
#[derive(Clone, Debug, PartialEq, Eq)]
pub struct Delivery {
    pub link: u32,
    pub id: u32,
    pub tag: Vec<u8>,
    /// The encoded message (part 3, 3.2).
    pub payload: Vec<u8>,
    /// The sender wants no outcome.
    pub is_settled: bool,
}

/// What the peer reported of a message that we sent.
#[derive(Clone, Debug, PartialEq, Eq)]
pub struct Outcome {
    pub link: u32,
    pub id: u32,
    pub tag: Vec<u8>,
    /// None if the peer settled the delivery without a state.
    pub state: Option<Reported>,
    pub is_settled: bool,
}

impl Outcome {
    /// Returns whether the peer accepted the message.
    pub fn is_accepted(&self) -> bool {
        self.state == Some(Reported::Accepted)
    }
}

/// What a link left when it ended: a message that was not taken, or an outcome that was not learned.
#[derive(Clone, Debug, PartialEq, Eq)]
pub enum Left {
    Delivery(Delivery),
    Outcome(Outcome),
}

/// What the peer has of a delivery that waits to be resumed (part 2, 2.6.13).
#[derive(Clone, Copy, Debug, PartialEq, Eq)]
pub enum Verdict {
    /// It is not known yet: the delivery cannot be resumed.
    Unclear,
    /// It never arrived, or is settled: resuming sends nothing.
    Absent,
    /// A part arrived: resuming aborts it, and it can be sent anew.
    Partial,
    /// It arrived.
    Held,
    /// It arrived, and has an outcome.
    Decided,
}

impl Verdict {
    pub(crate) fn of(number: u32) -> Verdict {
        match number {
            1 => Verdict::Absent,
            2 => Verdict::Partial,
            3 => Verdict::Held,
            4 => Verdict::Decided,
            _ => Verdict::Unclear,
        }
    }
}
