//! send connect|listen PORT COUNT SIZE: sends messages to the address `q`, and waits until each is accepted.
use std::net::{TcpListener, TcpStream};
use teivorm::{data_message, Connection, Event, LinkSettings, Settings};

fn main() -> Result<(), Box<dyn std::error::Error>> {
    let words: Vec<String> = std::env::args().collect();
    let [_, how, port, count, size] = &words[..] else { return Err("send connect|listen PORT COUNT SIZE".into()) };
    let (count, message): (u32, _) = (count.parse()?, data_message(&vec![b'x'; size.parse()?]));
    let address = format!("127.0.0.1:{port}");
    let (mut connection, link) = match how.as_str() {
        "connect" => {
            let mut connection = Connection::open(TcpStream::connect(address)?, "rust-sender", &Settings::default())?;
            let link = connection.attach_sender("sender", "q")?;
            (connection, link)
        }
        _ => {
            let (stream, _) = TcpListener::bind(address)?.accept()?;
            let mut connection = Connection::accept(stream, "rust-sender", &Settings::default())?;
            let link = loop {
                if let Event::Offered { link } = connection.next().ok_or("no link was offered")?? {
                    break link;
                }
            };
            connection.endpoint().answer(link, "q", "", LinkSettings::default())?;
            (connection, link)
        }
    };
    connection.stream().set_nodelay(true)?;
    let (mut learned, mut accepted) = (0, 0);
    for number in 0..count {
        connection.send(link, &number.to_be_bytes(), &message)?;
        while let Some(outcome) = connection.endpoint().learn(link)? {
            learned += 1;
            accepted += u32::from(outcome.is_accepted());
        }
    }
    while learned < count {
        learned += 1;
        accepted += u32::from(connection.outcome(link)?.is_accepted());
    }
    connection.close()?;
    println!("sent {count} accepted {accepted}");
    Ok(())
}
