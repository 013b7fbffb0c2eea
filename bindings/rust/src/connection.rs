//! A connection over a stream.
use crate::endpoint::{Endpoint, LinkSettings, Settings};
use crate::error::{Condition, Error};
use crate::event::{Delivery, Event, Outcome, Phase, Role};
use std::collections::VecDeque;
use std::io::{self, Read, Write};

/// A frame that carries a part of a message has at most so many bytes beside it.
const FRAME_HEAD: usize = 100;

/// An [`Endpoint`] over a stream that blocks, for example a `TcpStream` or what a TLS library makes of one.
///
/// It is an iterator: each item is the next [`Event`], and it ends when the connection is closed. Between two items the program acts by
/// [`endpoint`](Connection::endpoint); what that makes is written before the next read.
///
/// ```no_run
/// use std::net::TcpStream;
/// use teivorm::{data_message, Connection, Settings};
///
/// let stream = TcpStream::connect("localhost:5672")?;
/// let mut connection = Connection::open(stream, "my-id", &Settings::default())?;
/// let link = connection.attach_sender("my-link", "queue")?;
/// connection.send(link, b"1", &data_message(b"hello"))?;
/// assert!(connection.outcome(link)?.is_accepted());
/// connection.close()?;
/// # Ok::<(), teivorm::Error>(())
/// ```
#[derive(Debug)]
pub struct Connection<S> {
    endpoint: Endpoint,
    stream: S,
    /// Bytes that were read and not fed: those from `at` on.
    input: Vec<u8>,
    at: usize,
    /// Events that came while a call waited for another one.
    earlier: VecDeque<Event>,
}

impl<S: Read + Write> Connection<S> {
    /// A connection at its beginning: nothing was written or read.
    pub fn new(stream: S, endpoint: Endpoint) -> Connection<S> {
        Connection { endpoint, stream, input: Vec::new(), at: 0, earlier: VecDeque::new() }
    }

    /// Opens the connection, begins a session, and waits until the peer did the same. For the end that connects.
    ///
    /// # Errors
    ///
    /// As [`Connection::next_event`].
    pub fn open(stream: S, container_id: &str, settings: &Settings) -> Result<Connection<S>, Error> {
        let mut made = Connection::new(stream, Endpoint::new(container_id, settings)?);
        made.wait_for(|it| it == Event::Opened)?;
        made.endpoint.begin()?;
        made.wait_for(|it| it == Event::Begun)?;
        Ok(made)
    }

    /// Waits until the peer has opened the connection and begun a session, and answers. For the end that is connected to.
    pub fn accept(stream: S, container_id: &str, settings: &Settings) -> Result<Connection<S>, Error> {
        let mut made = Connection::new(stream, Endpoint::new(container_id, settings)?);
        made.wait_for(|it| it == Event::Begun)?;
        made.endpoint.begin()?;
        Ok(made)
    }

    /// The endpoint, to act on.
    pub fn endpoint(&mut self) -> &mut Endpoint {
        &mut self.endpoint
    }

    /// The stream, for example to set a time-out.
    pub fn stream(&mut self) -> &mut S {
        &mut self.stream
    }

    /// Writes all bytes that wait.
    pub fn flush(&mut self) -> io::Result<()> {
        let mut room = [0; 65536];
        loop {
            match self.endpoint.write(&mut room) {
                0 => return self.stream.flush(),
                count => self.stream.write_all(&room[..count])?,
            }
        }
    }

    /// Blocks until the next event; None once the connection is closed.
    ///
    /// # Errors
    ///
    /// [`Error::Fault`] if the peer's bytes are no AMQP, [`Error::Io`] if the stream fails or ends before the connection is closed. The connection is
    /// closed in both cases.
    pub fn next_event(&mut self) -> Result<Option<Event>, Error> {
        match self.earlier.pop_front() {
            Some(event) => Ok(Some(event)),
            None => self.newest_event(),
        }
    }

    fn newest_event(&mut self) -> Result<Option<Event>, Error> {
        while self.endpoint.phase() != Phase::Closed {
            if self.at == self.input.len() {
                self.read()?;
            }
            let fed = self.endpoint.feed(&self.input[self.at..]);
            if matches!(fed, Err(Error::Fault(_))) {
                self.flush()?;
            }
            let (used, event) = fed?;
            self.at += used;
            if event.is_some() {
                return Ok(event);
            }
        }
        self.flush()?;
        Ok(None)
    }

    /// Writes what waits, and reads once.
    fn read(&mut self) -> Result<(), Error> {
        self.endpoint.forget();
        self.input.resize(65536, 0);
        let read = self.flush().and_then(|()| self.stream.read(&mut self.input));
        self.at = 0;
        self.input.truncate(*read.as_ref().unwrap_or(&0));
        match read {
            Err(error) if matches!(error.kind(), io::ErrorKind::WouldBlock | io::ErrorKind::TimedOut | io::ErrorKind::Interrupted) => Err(error.into()),
            Err(error) => {
                self.endpoint.lost();
                Err(error.into())
            }
            Ok(0) => {
                self.endpoint.lost();
                Err(io::Error::from(io::ErrorKind::UnexpectedEof).into())
            }
            Ok(_) => Ok(()),
        }
    }

    /// Waits for an event, and keeps the others for [`next_event`](Connection::next_event).
    fn wait_for(&mut self, is_wanted: impl Fn(Event) -> bool) -> Result<Event, Error> {
        loop {
            match self.newest_event()? {
                Some(Event::Closed) | None => return Err(Error::Closed(self.endpoint.close_error())),
                Some(event) if is_wanted(event) => return Ok(event),
                Some(event) => self.earlier.push_back(event),
            }
        }
    }

    /// Tries a call until the session allows it.
    fn retry<T>(&mut self, mut call: impl FnMut(&mut Endpoint) -> Result<T, Error>) -> Result<T, Error> {
        loop {
            match call(&mut self.endpoint) {
                Err(error) if error.would_block() => self.wait_for_more()?,
                other => return other,
            }
        }
    }

    /// Waits for any event, and keeps it if the program has to act on it.
    fn wait_for_more(&mut self) -> Result<(), Error> {
        match self.newest_event()? {
            Some(Event::Closed) | None => Err(Error::Closed(self.endpoint.close_error())),
            Some(Event::Flow | Event::Outcomes) => Ok(()),
            Some(event) => {
                self.earlier.push_back(event);
                Ok(())
            }
        }
    }

    /// Attaches a link on which we send to an address, and waits until the peer answered. Returns the link's number.
    pub fn attach_sender(&mut self, name: &str, address: &str) -> Result<u32, Error> {
        self.attach(name, Role::Sender, "", address)
    }

    /// Attaches a link on which we receive from an address, waits until the peer answered, and grants credit.
    pub fn attach_receiver(&mut self, name: &str, address: &str, credit: u32) -> Result<u32, Error> {
        let link = self.attach(name, Role::Receiver, address, "")?;
        self.endpoint.grant(link, credit)?;
        Ok(link)
    }

    fn attach(&mut self, name: &str, role: Role, source: &str, target: &str) -> Result<u32, Error> {
        let link = self.endpoint.attach(name, role, source, target, LinkSettings::default())?;
        match self.wait_for(|it| it == Event::Attached { link } || it == Event::Detached { link })? {
            Event::Detached { .. } => Err(Error::Detached(self.endpoint.link_error(link))),
            _ => Ok(link),
        }
    }

    /// Sends a message, in as many frames as it takes, as soon as the peer allows it. Returns the delivery's id.
    pub fn send(&mut self, link: u32, tag: &[u8], payload: &[u8]) -> Result<u32, Error> {
        let room = (self.endpoint.status().peer_max_frame as usize).saturating_sub(FRAME_HEAD).max(1);
        let (first, mut rest) = payload.split_at(payload.len().min(room));
        let id = self.retry(|it| it.start(link, tag, first, false, !rest.is_empty()))?;
        while !rest.is_empty() {
            let (part, others) = rest.split_at(rest.len().min(room));
            self.retry(|it| it.carry(link, part, !others.is_empty()))?;
            rest = others;
        }
        Ok(id)
    }

    /// Waits for the next outcome of a message that we sent on the link.
    pub fn outcome(&mut self, link: u32) -> Result<Outcome, Error> {
        loop {
            match self.endpoint.learn(link)? {
                Some(outcome) => return Ok(outcome),
                None => self.wait_for_more()?,
            }
        }
    }

    /// Waits for the next message of the link. It is to be accepted, or disposed of otherwise, by the program.
    pub fn receive(&mut self, link: u32) -> Result<Delivery, Error> {
        loop {
            match self.endpoint.take(link)? {
                Some(delivery) => return Ok(delivery),
                None => self.wait_for_more()?,
            }
        }
    }

    /// Closes the connection, and waits for the peer's close.
    pub fn close(self) -> Result<(), Error> {
        self.close_with(None)
    }

    /// Closes the connection with an error, and waits for the peer's close.
    pub fn close_with(mut self, error: Option<&Condition>) -> Result<(), Error> {
        self.endpoint.close(error)?;
        while self.newest_event()?.is_some() {}
        Ok(())
    }
}

impl<S: Read + Write> Iterator for Connection<S> {
    type Item = Result<Event, Error>;

    fn next(&mut self) -> Option<Result<Event, Error>> {
        self.next_event().transpose()
    }
}
