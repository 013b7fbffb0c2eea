//! Two connections over a pair of sockets, each on a thread.
use std::os::unix::net::UnixStream;
use std::thread;
use teivorm::{data_message, Condition, Connection, Endpoint, Error, Event, LinkSettings, Phase, Refusal, Role, Settings, State};

/// Takes messages until the peer closes, and returns their payloads.
fn taken(stream: UnixStream, state: State<'_>) -> Result<Vec<Vec<u8>>, Error> {
    let mut connection = Connection::accept(stream, "receiver", &Settings::default())?;
    let mut payloads = Vec::new();
    while let Some(event) = connection.next() {
        let endpoint = connection.endpoint();
        match event? {
            Event::Offered { link } => {
                assert_eq!(endpoint.link_name(link).as_deref(), Some("link"));
                assert_eq!(endpoint.answer(link, "", "q", LinkSettings::default())?, Role::Receiver);
                endpoint.grant(link, 10)?;
            }
            Event::Ready { link } => {
                let delivery = endpoint.take(link)?.expect("a message is ready");
                endpoint.dispose(Role::Receiver, delivery.id, delivery.id, Some(state), true)?;
                endpoint.grant(link, 10)?;
                payloads.push(delivery.payload);
            }
            _ => {}
        }
    }
    Ok(payloads)
}

#[test]
fn messages_of_any_length_arrive() -> Result<(), Error> {
    let (near, far) = UnixStream::pair()?;
    let receiver = thread::spawn(move || taken(far, State::Accepted));
    let mut connection = Connection::open(near, "sender", &Settings::default())?;
    assert_eq!(connection.endpoint().peer_container_id().as_deref(), Some("receiver"));
    let link = connection.attach_sender("link", "q")?;
    let bodies: Vec<Vec<u8>> = [0, 1, 255, 256, 1024, 70_000, 200_000].iter().map(|&size| vec![b'x'; size]).collect();
    for (tag, body) in bodies.iter().enumerate() {
        connection.send(link, &tag.to_be_bytes(), &data_message(body))?;
    }
    for _ in &bodies {
        assert!(connection.outcome(link)?.is_accepted());
    }
    connection.close()?;
    let payloads = receiver.join().expect("the receiver does not panic")?;
    assert_eq!(payloads, bodies.iter().map(|it| data_message(it)).collect::<Vec<_>>());
    Ok(())
}

#[test]
fn a_rejection_is_learned() -> Result<(), Error> {
    let (near, far) = UnixStream::pair()?;
    let receiver = thread::spawn(move || taken(far, State::Rejected(Some(&Condition::new("amqp:decode-error", "no text")))));
    let mut connection = Connection::open(near, "sender", &Settings::default())?;
    let link = connection.attach_sender("link", "q")?;
    connection.send(link, b"1", &data_message(b"body"))?;
    let outcome = connection.outcome(link)?;
    assert_eq!((outcome.tag.as_slice(), outcome.state), (b"1".as_slice(), Some(teivorm::Reported::Rejected)));
    connection.close_with(Some(&Condition::new("amqp:internal-error", "")))?;
    assert_eq!(receiver.join().expect("the receiver does not panic")?.len(), 1);
    Ok(())
}

#[test]
fn a_peer_that_leaves_is_reported() -> Result<(), Error> {
    let (near, far) = UnixStream::pair()?;
    drop(far);
    assert!(matches!(Connection::open(near, "sender", &Settings::default()), Err(Error::Io(_))));
    Ok(())
}

/// Passes all bytes from one endpoint to the other, and returns what they brought.
fn pass(from: &mut Endpoint, to: &mut Endpoint) -> Result<Vec<Event>, Error> {
    let (mut room, mut events) = ([0; 4096], Vec::new());
    loop {
        let count = from.write(&mut room);
        if count == 0 {
            return Ok(events);
        }
        let mut at = 0;
        while at < count {
            let (used, event) = to.feed(&room[at..count])?;
            at += used;
            events.extend(event);
        }
    }
}

/// Two endpoints whose sessions have begun.
fn begun() -> Result<(Endpoint, Endpoint), Error> {
    let (mut a, mut b) = (Endpoint::new("a", &Settings::default())?, Endpoint::new("b", &Settings::default())?);
    for _ in 0..2 {
        pass(&mut a, &mut b)?;
        pass(&mut b, &mut a)?;
    }
    a.begin()?;
    assert_eq!(pass(&mut a, &mut b)?, [Event::Begun]);
    b.begin()?;
    assert_eq!(pass(&mut b, &mut a)?, [Event::Begun]);
    Ok((a, b))
}

#[test]
fn a_delivery_is_resumed_on_another_connection() -> Result<(), Error> {
    let settings = LinkSettings::default();
    let (mut a, mut b) = begun()?;
    let link = a.attach("link", Role::Sender, "", "q", settings)?;
    assert_eq!(pass(&mut a, &mut b)?, [Event::Offered { link }]);
    b.answer(link, "", "q", settings)?;
    b.grant(link, 10)?;
    assert_eq!(pass(&mut b, &mut a)?, [Event::Attached { link }, Event::Flow]);
    a.start(link, b"tag", &data_message(b"body"), false, false)?;
    assert_eq!(pass(&mut a, &mut b)?, [Event::Ready { link }]);
    assert_eq!(b.take(link)?.expect("a message is ready").tag, b"tag");
    a.lost();
    b.lost();

    let (mut a2, mut b2) = begun()?;
    let link = a2.rejoin(&mut a, Role::Sender, 0, "", "q", settings)?;
    assert_eq!(a2.waiting(link, 0), Some((b"tag".to_vec(), teivorm::Verdict::Unclear)));
    assert_eq!(pass(&mut a2, &mut b2)?, [Event::Offered { link }]);
    b2.rejoin(&mut b, Role::Receiver, 0, "", "q", settings)?;
    b2.grant(link, 10)?;
    assert_eq!(pass(&mut b2, &mut a2)?, [Event::Attached { link }, Event::Flow]);
    assert_eq!(a2.waiting(link, 0), Some((b"tag".to_vec(), teivorm::Verdict::Held)));
    assert_eq!(a2.resume(link, b"tag", false)?, teivorm::Verdict::Held);
    assert_eq!(a2.waiting(link, 0), None);
    assert!(matches!(a2.rejoin(&mut a, Role::Sender, 1, "", "q", settings), Err(Error::BadArgument)));
    Ok(())
}

#[test]
fn what_a_link_leaves_is_given() -> Result<(), Error> {
    let (mut a, mut b) = begun()?;
    let link = a.attach("link", Role::Sender, "", "q", LinkSettings::default())?;
    pass(&mut a, &mut b)?;
    b.answer(link, "", "q", LinkSettings::default())?;
    b.grant(link, 10)?;
    pass(&mut b, &mut a)?;
    a.start(link, b"tag", &data_message(b"body"), true, false)?;
    a.detach(link, Some(&Condition::new("amqp:internal-error", "gone")))?;
    assert_eq!(pass(&mut a, &mut b)?, [Event::Ready { link }, Event::Detached { link }]);
    assert_eq!(b.link_error(link), Some(Condition::new("amqp:internal-error", "gone")));
    let Some(teivorm::Left::Delivery(delivery)) = b.left()? else { panic!("the message is left") };
    assert_eq!((delivery.tag, delivery.payload), (b"tag".to_vec(), data_message(b"body")));
    assert_eq!(b.left()?, None);
    Ok(())
}

#[test]
fn refusals_change_nothing() -> Result<(), Error> {
    let mut endpoint = Endpoint::new("id", &Settings::default())?;
    let refused = endpoint.begin().expect_err("the connection is not running");
    assert!(refused.would_block());
    assert!(matches!(refused, Error::Refused(Refusal::NotRunning)));
    assert_eq!(refused.to_string(), "refused: the connection is not running");
    assert_eq!(endpoint.phase(), Phase::AwaitHeader);
    assert!(endpoint.link(0).is_none() && !endpoint.status().has_begun);
    Ok(())
}

#[test]
fn bytes_of_another_protocol_close() -> Result<(), Error> {
    let mut endpoint = Endpoint::new("id", &Settings::default())?;
    assert!(matches!(endpoint.feed(b"HTTP/1.1"), Err(Error::Fault(teivorm::Fault::BadHeader))));
    assert_eq!(endpoint.phase(), Phase::Closed);
    Ok(())
}

#[test]
fn settings_have_limits() {
    let settings = Settings { max_frame: 100, ..Settings::default() };
    assert!(matches!(Endpoint::new("id", &settings), Err(Error::NotStarted)));
    assert!(matches!(Endpoint::new(&"x".repeat(1000), &Settings::default()), Err(Error::NotStarted)));
}

#[test]
fn an_endpoint_moves_between_threads() -> Result<(), Error> {
    let mut endpoint = Endpoint::new("id", &Settings::default())?;
    let mut room = [0; 8];
    let count = thread::spawn(move || endpoint.write(&mut room)).join().expect("the thread does not panic");
    assert_eq!(count, 8);
    Ok(())
}
