//! Prints the endpoints of an OPC UA server on this machine: `endpoints PORT`. What is printed is what
//! `ua endpoints` prints. docs/C.md has the line that builds it.

use std::error::Error;
use std::io::{Read, Write};
use std::net::TcpStream;

#[path = "../../rust/ua.rs"]
mod ua;

use ua::Event;

struct Line {
    client: ua::Client,
    stream: TcpStream,
    came: Vec<u8>,
}

impl Line {
    fn send(&mut self) -> Result<(), Box<dyn Error>> {
        let octets = self.client.fetch()?;
        Ok(self.stream.write_all(&octets)?)
    }

    /// Takes what the server sends until this event.
    fn wait_for(&mut self, wanted: Event) -> Result<(), Box<dyn Error>> {
        loop {
            if self.came.is_empty() {
                let mut piece = [0; 4096];
                let count = self.stream.read(&mut piece)?;
                if count == 0 {
                    return Err("the server hung up".into());
                }
                self.came.extend_from_slice(&piece[..count]);
            }
            let (taken, event) = self.client.take(&self.came, ua::now())?;
            self.came.drain(..taken);
            match event {
                Event::Send => self.send()?,
                Event::NeedMore => {}
                event if event == wanted => return Ok(()),
                event => return Err(format!("{event:?}").into()),
            }
        }
    }
}

fn main() -> Result<(), Box<dyn Error>> {
    let port: u16 = std::env::args().nth(1).ok_or("endpoints PORT")?.parse()?;
    let url = format!("opc.tcp://localhost:{port}");
    let client = ua::Client::new(&url, &ua::Limits::default())?;
    let mut line = Line { client, stream: TcpStream::connect(("127.0.0.1", port))?, came: Vec::new() };
    line.client.hello()?;
    line.send()?;
    line.wait_for(Event::Open)?;
    let id = line.client.ask(&ua::request::get_endpoints(&url, ua::now(), 1)?)?;
    line.send()?;
    line.wait_for(Event::Answered(id))?;
    let reply = line.client.fetch()?;
    print!("{}", ua::response_text("i=0", &reply)?); // no node is asked for, and none is printed
    line.client.close(ua::now())?;
    line.send()
}
