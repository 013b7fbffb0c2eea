//! Why a call is not done.
use std::{error, fmt, io};

/// An enum whose variants have the library's numbers and say what they mean.
macro_rules! numbered {
    ($(#[$doc:meta])* $name:ident { $($variant:ident = $number:literal, $text:literal;)* }) => {
        $(#[$doc])*
        #[derive(Clone, Copy, Debug, PartialEq, Eq)]
        #[non_exhaustive]
        pub enum $name { $(#[doc = $text] $variant = $number,)* }

        impl $name {
            /// Returns the number by which the library reports it.
            pub fn number(self) -> u32 {
                self as u32
            }

            pub(crate) fn of(number: u32) -> Option<$name> {
                match number {
                    $($number => Some($name::$variant),)*
                    _ => None,
                }
            }
        }

        impl fmt::Display for $name {
            fn fmt(&self, f: &mut fmt::Formatter<'_>) -> fmt::Result {
                f.write_str(match self { $($name::$variant => $text,)* })
            }
        }

        impl error::Error for $name {}
    };
}

numbered! {
    /// Why the session refuses a call. Nothing has changed.
    Refusal {
        NotRunning = 1, "the connection is not running";
        JournalFull = 2, "the connection has made as many steps as it may";
        AlreadyBegun = 3, "the session has begun";
        NotMapped = 4, "the session has not begun at both ends, or has ended";
        NoLink = 5, "there is no such link";
        NotAttached = 6, "the link is not attached";
        WrongRole = 7, "the link has the other role";
        NameInUse = 8, "a link of this role and name exists";
        HandleLimit = 9, "the peer allows no more links";
        InDelivery = 10, "a message is unfinished on the link";
        NotInDelivery = 11, "no message is unfinished on the link";
        TagHeld = 12, "an unsettled delivery of the link has this tag";
        SettleMode = 13, "the link's settle mode does not allow it";
        NoCredit = 14, "the link has no credit";
        NoWindow = 15, "the peer's window is used up";
        MessageTooLong = 16, "the message is longer than the peer accepts";
        BadCredit = 17, "the credit is more than 2^31-1";
        CreditRecedes = 18, "the credit is less than the peer has now";
        Draining = 19, "the link is being drained";
        NotDraining = 20, "the peer does not drain the link";
        BadRange = 21, "the range of ids runs backwards";
        NothingHeld = 22, "no unsettled delivery has such an id";
        MustNotSettle = 23, "the sender settles first on this link";
        OutcomeFixed = 24, "the delivery has another outcome already";
        Nothing = 25, "there is nothing to take or to learn";
        NotWritable = 26, "no frame can say this";
        FrameTooBig = 27, "the frame is longer than the peer accepts";
        NoMemory = 28, "out of memory";
        NotWaiting = 29, "no delivery with this tag waits to be resumed";
        Unclear = 30, "it is not known yet what the peer has of the delivery";
        TagTwice = 31, "a tag occurs twice";
    }
}

numbered! {
    /// What is wrong with the peer's bytes. The connection is closed, except after `NoMemory`.
    Fault {
        BadHeader = 1, "the peer does not speak AMQP 1.0";
        Framing = 2, "the bytes are no frame";
        OutOfPlace = 3, "a frame is not allowed now";
        BadChannel = 4, "a frame is on a channel without a session";
        JournalFull = 5, "the connection has made as many steps as it may";
        Closed = 6, "the connection is closed";
        NoMemory = 7, "out of memory: the same bytes can be fed again";
    }
}

/// Why a call is not done. Except for [`Error::Fault`] and [`Error::Io`], nothing has changed.
#[derive(Debug)]
#[non_exhaustive]
pub enum Error {
    /// A tag of more than 32 bytes, or a number out of its range.
    BadArgument,
    /// Memory ran out before the connection was asked.
    OutOfMemory,
    /// The session does not allow it now.
    Refused(Refusal),
    /// The peer's bytes are wrong.
    Fault(Fault),
    /// A setting is out of its limits, or memory ran out.
    NotStarted,
    /// The connection is not running, or the close cannot be written.
    NotClosed,
    /// The peer closed the connection, with this error if it gave one.
    Closed(Option<Condition>),
    /// The peer detached the link, with this error if it gave one.
    Detached(Option<Condition>),
    /// The stream failed, or ended before the connection was closed.
    Io(io::Error),
}

/// An error condition with its description (part 2, 2.8.14), as a peer sends it.
#[derive(Clone, Debug, PartialEq, Eq)]
pub struct Condition {
    /// A symbol, for example `amqp:internal-error`.
    pub name: String,
    /// Text for people; may be empty.
    pub description: String,
}

impl Condition {
    /// An error condition to send.
    pub fn new(name: &str, description: &str) -> Condition {
        Condition { name: name.into(), description: description.into() }
    }
}

impl fmt::Display for Condition {
    fn fmt(&self, f: &mut fmt::Formatter<'_>) -> fmt::Result {
        match self.description.as_str() {
            "" => f.write_str(&self.name),
            description => write!(f, "{}: {description}", self.name),
        }
    }
}

impl Error {
    /// Returns whether the peer's next frames may allow the same call.
    pub fn would_block(&self) -> bool {
        use Refusal::*;
        matches!(self, Error::Refused(NotRunning | NotMapped | NotAttached | NoCredit | NoWindow | Nothing | Unclear))
    }
}

/// What the library returned.
pub(crate) fn answer(result: u32) -> Result<(), Error> {
    match (result >> 8, result & 255) {
        (0, 0) => Ok(()),
        (0, 3) => Err(Error::OutOfMemory),
        (1, number) => Err(Refusal::of(number).map_or(Error::BadArgument, Error::Refused)),
        (2, number) => Err(Fault::of(number).map_or(Error::BadArgument, Error::Fault)),
        (3, _) => Err(Error::NotStarted),
        (4, _) => Err(Error::NotClosed),
        _ => Err(Error::BadArgument),
    }
}

impl fmt::Display for Error {
    fn fmt(&self, f: &mut fmt::Formatter<'_>) -> fmt::Result {
        match self {
            Error::BadArgument => f.write_str("an argument is out of its range"),
            Error::OutOfMemory => f.write_str("out of memory"),
            Error::Refused(refusal) => write!(f, "refused: {refusal}"),
            Error::Fault(fault) => write!(f, "{fault}"),
            Error::NotStarted => f.write_str("a setting is out of its limits, or memory ran out"),
            Error::NotClosed => f.write_str("the close cannot be sent"),
            Error::Closed(None) => f.write_str("the peer closed the connection"),
            Error::Closed(Some(condition)) => write!(f, "the peer closed the connection: {condition}"),
            Error::Detached(None) => f.write_str("the peer detached the link"),
            Error::Detached(Some(condition)) => write!(f, "the peer detached the link: {condition}"),
            Error::Io(error) => write!(f, "{error}"),
        }
    }
}

impl error::Error for Error {
    fn source(&self) -> Option<&(dyn error::Error + 'static)> {
        match self {
            Error::Refused(refusal) => Some(refusal),
            Error::Fault(fault) => Some(fault),
            Error::Io(error) => Some(error),
            _ => None,
        }
    }
}

impl From<io::Error> for Error {
    fn from(error: io::Error) -> Error {
        Error::Io(error)
    }
}
