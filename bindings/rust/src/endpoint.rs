//! A connection without input and output.
use crate::error::{answer, Condition, Error, Refusal};
use crate::event::{Delivery, Event, Left, Outcome, Phase, Reported, Role, State, Verdict};
use crate::sys::{self, RawConn, RawConnStatus, RawEvent, RawLinkSettings, RawLinkStatus, RawSettings};
use std::{fmt, ptr};

/// Settings of a connection.
#[derive(Clone, Debug, Default, PartialEq, Eq)]
pub struct Settings {
    /// The host that we want of the peer (part 2, 2.7.1); empty for none.
    pub host: String,
    /// The longest frame that we accept, at least 512 bytes; 0 for 65,536.
    pub max_frame: u32,
    /// How many transfers the peer may send before we renew the window; 0 for 2,048.
    pub window: u32,
    /// How many steps the connection can make in its life; 0 for 2^30.
    pub journal_limit: u32,
    /// The id of our first transfer and our first delivery.
    pub first_id: u32,
    /// The idle time-out that we announce, in milliseconds; 0 for none.
    pub idle_time_out: u32,
}

/// Settings of a link, in the standard's numbers.
#[derive(Clone, Copy, Debug, PartialEq, Eq)]
pub struct LinkSettings {
    /// The sender's settle mode: 0 unsettled, 1 settled, 2 mixed (part 2, 2.8.2).
    pub sender_settle_mode: u8,
    /// The receiver's settle mode: 0 first, 1 second (part 2, 2.8.3).
    pub receiver_settle_mode: u8,
    /// A sender's initial delivery-count.
    pub initial_delivery_count: u32,
    /// The longest message that we accept; 0 for no limit.
    pub max_message_size: u64,
}

impl LinkSettings {
    fn to_raw(self) -> RawLinkSettings {
        RawLinkSettings { snd: self.sender_settle_mode, rcv: self.receiver_settle_mode, count: self.initial_delivery_count, max_message: self.max_message_size }
    }
}

impl Default for LinkSettings {
    fn default() -> LinkSettings {
        LinkSettings { sender_settle_mode: 2, receiver_settle_mode: 0, initial_delivery_count: 0, max_message_size: 0 }
    }
}

/// How a connection stands.
#[derive(Clone, Copy, Debug, PartialEq, Eq)]
pub struct Status {
    /// The peer has begun its session.
    pub has_begun: bool,
    /// How many more steps the connection can make.
    pub steps_left: u32,
    /// The longest frame that the peer accepts; 0 before its open.
    pub peer_max_frame: u32,
    /// The peer's idle time-out in milliseconds; 0 for none.
    pub peer_idle_time_out: u32,
    /// How many bytes wait to be written.
    pub unwritten: u64,
    /// How many unsettled deliveries we sent.
    pub sent_unsettled: u64,
    /// How many unsettled deliveries we received.
    pub received_unsettled: u64,
}

/// How a link stands.
#[derive(Clone, Copy, Debug, PartialEq, Eq)]
pub struct LinkStatus {
    pub role: Role,
    /// Both ends have attached it.
    pub is_attached: bool,
    /// How many messages may still be sent, by us or by the peer.
    pub credit: u32,
    /// How many messages wait to be taken.
    pub ready: u64,
    /// The peer drains the link, or a drain of ours is not finished.
    pub is_draining: bool,
    /// The longest message that the peer accepts; 0 for no limit.
    pub peer_max_message: u64,
}

/// Texts that the library copies out.
#[derive(Clone, Copy)]
enum Text {
    LinkName = 0,
    PeerContainerId = 1,
    PeerHost = 2,
    CloseCondition = 5,
    CloseDescription = 6,
    LinkCondition = 7,
    LinkDescription = 8,
}

/// One end of a connection: bytes go in by [`feed`](Endpoint::feed), and come out by [`write`](Endpoint::write). No call blocks.
///
/// ```
/// use teivorm::{Endpoint, Event, Settings};
///
/// let mut here = Endpoint::new("here", &Settings::default())?;
/// let mut there = Endpoint::new("there", &Settings::default())?;
/// let mut room = [0; 1024];
/// let count = here.write(&mut room);
/// assert_eq!(&room[..count], b"AMQP\0\x01\0\0");
/// let (used, event) = there.feed(&room[..count])?;
/// assert_eq!((used, event), (8, None));
/// # Ok::<(), teivorm::Error>(())
/// ```
pub struct Endpoint(RawConn);

// An endpoint may move to another thread: what it points to is reached through it alone, and the library has no state of its own. No call takes `&self` to
// something that changes, but the library takes each handle as mutable, so an endpoint is not `Sync`.
unsafe impl Send for Endpoint {}

impl Drop for Endpoint {
    fn drop(&mut self) {
        unsafe { sys::teivorm_raw_free(&mut self.0) }
    }
}

impl fmt::Debug for Endpoint {
    fn fmt(&self, f: &mut fmt::Formatter<'_>) -> fmt::Result {
        f.debug_struct("Endpoint").finish_non_exhaustive()
    }
}

impl Endpoint {
    /// Starts a connection with this container id.
    ///
    /// # Errors
    ///
    /// [`Error::NotStarted`] if a setting is out of its limits, or the id and the host are longer than an open of 512 bytes allows.
    pub fn new(container_id: &str, settings: &Settings) -> Result<Endpoint, Error> {
        let raw = RawSettings {
            max_frame: settings.max_frame,
            window: settings.window,
            journal_limit: settings.journal_limit,
            first_id: settings.first_id,
            idle_time_out: settings.idle_time_out,
        };
        let mut made = Endpoint(RawConn { at: ptr::null_mut(), live: false });
        let host = &settings.host;
        answer(unsafe { sys::teivorm_raw_new(&mut made.0, container_id.as_ptr(), container_id.len(), host.as_ptr(), host.len(), &raw) })?;
        Ok(made)
    }

    fn call(&mut self, f: impl FnOnce(*mut RawConn, *mut RawEvent) -> u32) -> Result<RawEvent, Error> {
        let mut event = RawEvent::default();
        answer(f(&mut self.0, &mut event))?;
        Ok(event)
    }

    /// Returns how far the connection is.
    pub fn phase(&mut self) -> Phase {
        match unsafe { sys::teivorm_raw_phase(&mut self.0) } {
            1 => Phase::AwaitHeader,
            2 => Phase::AwaitOpen,
            3 => Phase::Running,
            4 => Phase::Closing,
            _ => Phase::Closed,
        }
    }

    /// Processes bytes of the peer, at most to the end of one frame. Returns how many were used, and what they brought; feed the others again.
    ///
    /// # Errors
    ///
    /// [`Error::Fault`] if the bytes are no AMQP: the connection is closed.
    pub fn feed(&mut self, bytes: &[u8]) -> Result<(usize, Option<Event>), Error> {
        let before = self.phase();
        let mut used = 0;
        let event = self.call(|c, e| unsafe { sys::teivorm_raw_feed(c, bytes.as_ptr(), bytes.len(), &mut used, e) })?;
        Ok((used, Event::of(&event, before)))
    }

    /// Copies bytes that go to the peer next, as many as fit, and returns how many: 0 if none wait.
    pub fn write(&mut self, room: &mut [u8]) -> usize {
        let mut at = 0;
        while at < room.len() {
            let rest = &mut room[at..];
            match unsafe { sys::teivorm_raw_write(&mut self.0, rest.as_mut_ptr(), rest.len()) } {
                0 => break,
                count => at += count,
            }
        }
        at
    }

    /// Returns bytes that go to the peer next, without a copy: none if none wait. [`wrote`](Endpoint::wrote) says how many of them were written.
    pub fn output(&mut self) -> &[u8] {
        let mut at = ptr::null();
        let count = unsafe { sys::teivorm_raw_unit(&mut self.0, &mut at) };
        unsafe { lent(at, count) }
    }

    /// Says how many of the bytes of [`output`](Endpoint::output) were written.
    pub fn wrote(&mut self, count: usize) {
        unsafe { sys::teivorm_raw_wrote(&mut self.0, count) };
    }

    /// Says that no more bytes will come. The phase is closed then.
    pub fn lost(&mut self) {
        unsafe { sys::teivorm_raw_lost(&mut self.0) };
    }

    /// Frees the memory of the steps so far: otherwise each message stays in memory.
    pub fn forget(&mut self) {
        unsafe { sys::teivorm_raw_forget(&mut self.0) };
    }

    /// Closes the connection, with an error if there is one.
    pub fn close(&mut self, error: Option<&Condition>) -> Result<(), Error> {
        let (name, text) = parts(error);
        answer(unsafe { sys::teivorm_raw_close(&mut self.0, name.as_ptr(), name.len(), text.as_ptr(), text.len()) })
    }

    /// Begins the session, or answers the peer's begin (part 2, 2.5.1).
    pub fn begin(&mut self) -> Result<(), Error> {
        self.call(|c, e| unsafe { sys::teivorm_raw_begin(c, e) }).map(drop)
    }

    /// Ends the session and all links.
    pub fn end(&mut self, error: Option<&Condition>) -> Result<(), Error> {
        let (name, text) = parts(error);
        self.call(|c, e| unsafe { sys::teivorm_raw_end(c, name.as_ptr(), name.len(), text.as_ptr(), text.len(), e) }).map(drop)
    }

    /// Sends an empty frame, so that the peer's idle time-out does not expire.
    pub fn beat(&mut self) -> Result<(), Error> {
        self.call(|c, e| unsafe { sys::teivorm_raw_beat(c, e) }).map(drop)
    }

    /// Sends the session window anew; with `echo` the peer is asked for a flow.
    pub fn refresh(&mut self, echo: bool) -> Result<(), Error> {
        self.call(|c, e| unsafe { sys::teivorm_raw_refresh(c, echo, e) }).map(drop)
    }

    /// Attaches a link, or answers the peer's attach of this name, and returns the link's number. An empty address is no source or no target.
    pub fn attach(&mut self, name: &str, role: Role, source: &str, target: &str, settings: LinkSettings) -> Result<u32, Error> {
        self.attach_named(name.as_bytes(), role, source, target, settings)
    }

    fn attach_named(&mut self, name: &[u8], role: Role, source: &str, target: &str, settings: LinkSettings) -> Result<u32, Error> {
        let (raw, from, to) = (settings.to_raw(), source.as_bytes(), target.as_bytes());
        let event = self.call(|c, e| unsafe {
            sys::teivorm_raw_attach(c, name.as_ptr(), name.len(), role as u32, from.as_ptr(), from.len(), to.as_ptr(), to.len(), &raw, e)
        })?;
        Ok(event.link)
    }

    /// Answers a link that the peer offers, and returns the role that is ours then.
    ///
    /// # Errors
    ///
    /// [`Error::BadArgument`] if there is no such link.
    pub fn answer(&mut self, link: u32, source: &str, target: &str, settings: LinkSettings) -> Result<Role, Error> {
        let role = self.link(link).ok_or(Error::BadArgument)?.role;
        let name = self.text(Text::LinkName, link).unwrap_or_default();
        self.attach_named(name.as_bytes(), role, source, target, settings)?;
        Ok(role)
    }

    /// Detaches a link for good.
    pub fn detach(&mut self, link: u32, error: Option<&Condition>) -> Result<(), Error> {
        let (name, text) = parts(error);
        self.call(|c, e| unsafe { sys::teivorm_raw_detach(c, link, name.as_ptr(), name.len(), text.as_ptr(), text.len(), e) }).map(drop)
    }

    /// Puts a link aside: it is detached, but not for good (part 2, 2.6.4).
    pub fn suspend(&mut self, link: u32) -> Result<(), Error> {
        self.call(|c, e| unsafe { sys::teivorm_raw_suspend(c, link, e) }).map(drop)
    }

    /// Attaches a link of a connection that was lost on this one (part 2, 2.6.13), and returns its number: the link at this place, from 0, of those on
    /// which we had this role, in the order in which they were made. What was unsettled on it waits to be resumed.
    ///
    /// # Errors
    ///
    /// [`Error::BadArgument`] if there is no such link.
    pub fn rejoin(&mut self, lost: &mut Endpoint, role: Role, place: u32, source: &str, target: &str, settings: LinkSettings) -> Result<u32, Error> {
        let (raw, from, to) = (settings.to_raw(), source.as_bytes(), target.as_bytes());
        let event = self
            .call(|c, e| unsafe { sys::teivorm_raw_rejoin(c, &mut lost.0, role as u32, place, from.as_ptr(), from.len(), to.as_ptr(), to.len(), &raw, e) })?;
        Ok(event.link)
    }

    /// Returns the tag of the delivery at this place, from 0, of those that wait on the link to be resumed, and what the peer has of it.
    pub fn waiting(&mut self, link: u32, place: u32) -> Option<(Vec<u8>, Verdict)> {
        let event = self.call(|c, e| unsafe { sys::teivorm_raw_waiting(c, link, place, e) }).ok()?;
        Some((tag_of(&event), Verdict::of(event.verdict)))
    }

    /// Resumes the delivery with this tag that waits on the link, and returns what the peer had of it; `settled` ends it if the peer has an outcome.
    pub fn resume(&mut self, link: u32, tag: &[u8], settled: bool) -> Result<Verdict, Error> {
        let event = self.call(|c, e| unsafe { sys::teivorm_raw_resume(c, link, tag.as_ptr(), tag.len(), settled, e) })?;
        Ok(Verdict::of(event.verdict))
    }

    /// Takes the next of what links left when they ended, if anything is left.
    pub fn left(&mut self) -> Result<Option<Left>, Error> {
        let event = self.call(|c, e| unsafe { sys::teivorm_raw_left(c, e) })?;
        Ok(match event.kind {
            7 => Some(Left::Delivery(self.delivery_of(&event))),
            8 => Some(Left::Outcome(outcome_of(&event))),
            _ => None,
        })
    }

    /// Sends a message, or its first part if there are `more`, and returns the delivery's id. The tag has at most 32 bytes.
    pub fn start(&mut self, link: u32, tag: &[u8], payload: &[u8], settled: bool, more: bool) -> Result<u32, Error> {
        let event = self.call(|c, e| unsafe { sys::teivorm_raw_start(c, link, tag.as_ptr(), tag.len(), payload.as_ptr(), payload.len(), settled, more, e) })?;
        Ok(event.id)
    }

    /// Sends the next part of the message that is unfinished on the link.
    pub fn carry(&mut self, link: u32, payload: &[u8], more: bool) -> Result<(), Error> {
        self.call(|c, e| unsafe { sys::teivorm_raw_carry(c, link, payload.as_ptr(), payload.len(), more, e) }).map(drop)
    }

    /// Gives up the message that is unfinished on the link.
    pub fn abort(&mut self, link: u32) -> Result<(), Error> {
        self.call(|c, e| unsafe { sys::teivorm_raw_abort(c, link, e) }).map(drop)
    }

    /// Announces how many messages we have for the link.
    pub fn offer(&mut self, link: u32, available: u32) -> Result<(), Error> {
        self.call(|c, e| unsafe { sys::teivorm_raw_offer(c, link, available, e) }).map(drop)
    }

    /// Gives up the credit that is left, as a peer wants that drains the link.
    pub fn drained(&mut self, link: u32) -> Result<(), Error> {
        self.call(|c, e| unsafe { sys::teivorm_raw_drained(c, link, e) }).map(drop)
    }

    /// Returns the next outcome of a message that we sent on the link, if the peer reported one.
    pub fn learn(&mut self, link: u32) -> Result<Option<Outcome>, Error> {
        let event = match self.call(|c, e| unsafe { sys::teivorm_raw_learn(c, link, e) }) {
            Ok(event) => event,
            Err(Error::Refused(Refusal::Nothing)) => return Ok(None),
            Err(error) => return Err(error),
        };
        Ok(Some(outcome_of(&event)))
    }

    /// Sets the link's credit: how many more messages the peer may send.
    pub fn grant(&mut self, link: u32, credit: u32) -> Result<(), Error> {
        self.call(|c, e| unsafe { sys::teivorm_raw_grant(c, link, credit, false, false, e) }).map(drop)
    }

    /// Lets the peer use its credit up or give it up (part 2, 2.6.7).
    pub fn drain(&mut self, link: u32, credit: u32) -> Result<(), Error> {
        self.call(|c, e| unsafe { sys::teivorm_raw_grant(c, link, credit, true, false, e) }).map(drop)
    }

    /// Takes the first whole message of the link, if there is one.
    pub fn take(&mut self, link: u32) -> Result<Option<Delivery>, Error> {
        let event = match self.call(|c, e| unsafe { sys::teivorm_raw_take(c, link, e) }) {
            Ok(event) => event,
            Err(Error::Refused(Refusal::Nothing)) => return Ok(None),
            Err(error) => return Err(error),
        };
        Ok(Some(self.delivery_of(&event)))
    }

    fn delivery_of(&mut self, event: &RawEvent) -> Delivery {
        let payload = self.payload(event.payload_len as usize);
        Delivery { link: event.link, id: event.id, tag: tag_of(event), payload, is_settled: event.settled }
    }

    fn payload(&mut self, len: usize) -> Vec<u8> {
        let mut payload = Vec::with_capacity(len);
        loop {
            let mut at = ptr::null();
            match unsafe { sys::teivorm_raw_payload_at(&mut self.0, payload.len() as u64, &mut at) } {
                0 => return payload,
                count => payload.extend_from_slice(unsafe { lent(at, count) }),
            }
        }
    }

    /// Gives a state to the unsettled deliveries `first` to `last`, of links on which we have this role, and settles them if that is wanted.
    pub fn dispose(&mut self, role: Role, first: u32, last: u32, state: Option<State<'_>>, settled: bool) -> Result<(), Error> {
        let (name, text) = parts(state.and_then(State::condition));
        let raw = state.map(State::to_raw).unwrap_or_default();
        self.call(|c, e| unsafe {
            sys::teivorm_raw_dispose(c, role as u32, first, last, settled, &raw, name.as_ptr(), name.len(), text.as_ptr(), text.len(), e)
        })
        .map(drop)
    }

    /// Accepts and settles a message that we received.
    pub fn accept(&mut self, id: u32) -> Result<(), Error> {
        self.dispose(Role::Receiver, id, id, Some(State::Accepted), true)
    }

    /// Returns how the connection stands.
    pub fn status(&mut self) -> Status {
        let mut raw = RawConnStatus::default();
        unsafe { sys::teivorm_raw_status(&mut self.0, &mut raw) };
        Status {
            has_begun: raw.begun,
            steps_left: raw.steps_left,
            peer_max_frame: raw.peer_max_frame,
            peer_idle_time_out: raw.peer_idle_time_out,
            unwritten: raw.octets + raw.unwritten,
            sent_unsettled: raw.sent_unsettled,
            received_unsettled: raw.received_unsettled,
        }
    }

    /// Returns how a link stands, if there is one of this number.
    pub fn link(&mut self, link: u32) -> Option<LinkStatus> {
        let mut raw = RawLinkStatus::default();
        if unsafe { sys::teivorm_raw_link(&mut self.0, link, &mut raw) } != 0 {
            return None;
        }
        let role = if raw.role == 0 { Role::Sender } else { Role::Receiver };
        Some(LinkStatus {
            role,
            is_attached: raw.phase == 3,
            credit: raw.credit,
            ready: raw.ready,
            is_draining: raw.drain,
            peer_max_message: raw.peer_max_message,
        })
    }

    fn text(&mut self, what: Text, link: u32) -> Option<String> {
        let mut room = vec![0; 256];
        let len = unsafe { sys::teivorm_raw_text(&mut self.0, what as u32, link, room.as_mut_ptr(), room.len()) };
        if len > room.len() {
            room.resize(len, 0);
            unsafe { sys::teivorm_raw_text(&mut self.0, what as u32, link, room.as_mut_ptr(), room.len()) };
        }
        room.truncate(len);
        if len == 0 {
            return None;
        }
        String::from_utf8(room).ok()
    }

    /// Returns the name of a link.
    pub fn link_name(&mut self, link: u32) -> Option<String> {
        self.text(Text::LinkName, link)
    }

    /// Returns the peer's container id, once its open arrived.
    pub fn peer_container_id(&mut self) -> Option<String> {
        self.text(Text::PeerContainerId, 0)
    }

    /// Returns the host that the peer wants of us.
    pub fn peer_host(&mut self) -> Option<String> {
        self.text(Text::PeerHost, 0)
    }

    /// Returns the error with which the peer closed the connection.
    pub fn close_error(&mut self) -> Option<Condition> {
        let name = self.text(Text::CloseCondition, 0)?;
        Some(Condition { name, description: self.text(Text::CloseDescription, 0).unwrap_or_default() })
    }

    /// Returns the error with which the peer detached the link, until [`forget`](Endpoint::forget).
    pub fn link_error(&mut self, link: u32) -> Option<Condition> {
        let name = self.text(Text::LinkCondition, link)?;
        Some(Condition { name, description: self.text(Text::LinkDescription, link).unwrap_or_default() })
    }
}

fn parts(error: Option<&Condition>) -> (&str, &str) {
    error.map_or(("", ""), |it| (&it.name, &it.description))
}

/// What the library lent.
///
/// # Safety
///
/// `at` has so many bytes, or their number is 0, and they stay as they are for the lifetime.
unsafe fn lent<'a>(at: *const u8, count: usize) -> &'a [u8] {
    match count {
        0 => &[],
        _ => unsafe { std::slice::from_raw_parts(at, count) },
    }
}

fn outcome_of(event: &RawEvent) -> Outcome {
    Outcome { link: event.link, id: event.id, tag: tag_of(event), state: Reported::of(event.state), is_settled: event.settled }
}

fn tag_of(event: &RawEvent) -> Vec<u8> {
    event.tag[..event.tag_len as usize].to_vec()
}
