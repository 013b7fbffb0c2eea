//! receive connect|listen PORT COUNT: takes and accepts messages, from the address `q` if it connects.
use std::net::{TcpListener, TcpStream};
use teivorm::{Connection, Event, LinkSettings, Settings};

const CREDIT: u32 = 100;

fn main() -> Result<(), Box<dyn std::error::Error>> {
    let words: Vec<String> = std::env::args().collect();
    let [_, how, port, count] = &words[..] else { return Err("receive connect|listen PORT COUNT".into()) };
    let (count, address): (u32, _) = (count.parse()?, format!("127.0.0.1:{port}"));
    let (mut taken, mut bytes) = (0, 0);
    let mut connection = match how.as_str() {
        "connect" => {
            let mut connection = Connection::open(TcpStream::connect(address)?, "rust-receiver", &Settings::default())?;
            connection.attach_receiver("receiver", "q", CREDIT)?;
            connection
        }
        _ => Connection::accept(TcpListener::bind(address)?.accept()?.0, "rust-receiver", &Settings::default())?,
    };
    connection.stream().set_nodelay(true)?;
    // Between two events the program acts.
    while let Some(event) = connection.next() {
        let endpoint = connection.endpoint();
        match event? {
            Event::Offered { link } => {
                endpoint.answer(link, "", "q", LinkSettings::default())?;
                endpoint.grant(link, CREDIT)?;
            }
            Event::Ready { link } => {
                while let Some(delivery) = endpoint.take(link)? {
                    taken += 1;
                    bytes += delivery.payload.len();
                    if !delivery.is_settled {
                        endpoint.accept(delivery.id)?;
                    }
                    if taken % (CREDIT / 2) == 0 {
                        endpoint.grant(link, CREDIT)?;
                    }
                }
                if how == "connect" && taken == count {
                    endpoint.close(None)?;
                }
            }
            _ => {}
        }
    }
    println!("taken {taken} bytes {bytes}");
    if taken == count {
        Ok(())
    } else {
        Err("the connection ended early".into())
    }
}
