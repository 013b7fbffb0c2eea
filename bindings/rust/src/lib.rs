//! One end of an AMQP 1.0 connection, over a library whose connection is proved.
//!
//! [`Connection`] runs over any `Read + Write`, and is what most programs want. [`Endpoint`] does no input and no output: bytes go in, bytes come out, and
//! nothing blocks, so it fits any event loop. SASL and TLS are layers of the program's own: a stream that has done both is a stream like any other.
//!
//! What is proved is the C library below, not this package: see docs/embedding.md for what is trusted.
//!
//! Two ends in one process:
//!
//! ```
//! use teivorm::{data_message, Endpoint, Event, LinkSettings, Role, Settings};
//!
//! # fn main() -> Result<(), teivorm::Error> {
//! let mut sender = Endpoint::new("sender", &Settings::default())?;
//! let mut receiver = Endpoint::new("receiver", &Settings::default())?;
//! let (mut events, mut taken) = (Vec::new(), Vec::new());
//! let mut room = [0; 4096];
//! loop {
//!     // Bytes of the sender go to the receiver, which acts.
//!     let count = sender.write(&mut room);
//!     let mut at = 0;
//!     while at < count {
//!         let (used, event) = receiver.feed(&room[at..count])?;
//!         at += used;
//!         match event {
//!             Some(Event::Begun) => receiver.begin()?,
//!             Some(Event::Offered { link }) => {
//!                 receiver.answer(link, "", "queue", LinkSettings::default())?;
//!                 receiver.grant(link, 10)?;
//!             }
//!             Some(Event::Ready { link }) => {
//!                 let delivery = receiver.take(link)?.expect("a message is ready");
//!                 receiver.accept(delivery.id)?;
//!                 taken.push(delivery.payload);
//!             }
//!             _ => {}
//!         }
//!     }
//!     // And the other way.
//!     let back = receiver.write(&mut room);
//!     let mut at = 0;
//!     while at < back {
//!         let (used, event) = sender.feed(&room[at..back])?;
//!         at += used;
//!         match event {
//!             Some(Event::Opened) => sender.begin()?,
//!             Some(Event::Begun) => drop(sender.attach("link", Role::Sender, "", "queue", LinkSettings::default())?),
//!             Some(Event::Flow) if events.is_empty() => drop(sender.start(0, b"tag", &data_message(b"hello"), false, false)?),
//!             Some(Event::Outcomes) => assert!(sender.learn(0)?.expect("an outcome is there").is_accepted()),
//!             _ => {}
//!         }
//!         events.extend(event.filter(|it| *it == Event::Flow));
//!     }
//!     if count == 0 && back == 0 {
//!         break;
//!     }
//! }
//! assert_eq!(taken, [data_message(b"hello")]);
//! # Ok(())
//! # }
//! ```
mod connection;
mod endpoint;
mod error;
mod event;
mod message;
mod sys;

pub use connection::Connection;
pub use endpoint::{Endpoint, LinkSettings, LinkStatus, Settings, Status};
pub use error::{Condition, Error, Fault, Refusal};
pub use event::{Delivery, Event, Left, Outcome, Phase, Reported, Role, State, Verdict};
pub use message::data_message;
