//! A first test: cargo test

use crate::client::{join, Here};
use std::io::{BufRead, BufReader, Write};
use std::net::TcpListener;
use std::thread::spawn;

#[test]
fn a_departure_is_answered_twice() {
    let listener = TcpListener::bind("127.0.0.1:0").unwrap();
    let address = listener.local_addr().unwrap().to_string();
    let server = spawn(move || {
        let (mut socket, _) = listener.accept().unwrap();
        let mut reader = BufReader::new(socket.try_clone().unwrap());
        let mut heard = Vec::new();
        for answer in [
            "{\"board\":\"\",\"from\":null,\"ok\":\"here\",\"ports\":2}\n",
            "{\"ok\":\"gone\"}\n{\"board\":\"3 1\",\"from\":1,\"ok\":\"here\",\"ports\":2}\n",
        ] {
            let mut line = String::new();
            reader.read_line(&mut line).unwrap();
            heard.push(line);
            socket.write_all(answer.as_bytes()).unwrap();
        }
        heard
    });
    let (mut agent, home) = join(&address, "ka").unwrap();
    assert_eq!(home, Here { ports: 2, came: None, board: String::new() });
    let next = agent.depart(0).unwrap();
    assert_eq!(next, Here { ports: 2, came: Some(1), board: "3 1".to_string() });
    assert_eq!(server.join().unwrap(), ["{\"do\":\"enter\",\"key\":\"ka\"}\n", "{\"do\":\"depart\",\"port\":0}\n"]);
}
