//! Answers each of so many connections by a constant, as soon as its head has ended: what an exchange over loopback
//! takes by itself.
//!
//! usage: constant_server serve PORT COUNT
use std::env;
use std::io::{Read, Write};
use std::net::TcpListener;

const ANSWER: &[u8] = b"HTTP/1.1 200 OK\r\nContent-Type: text/csv; charset=utf-8\r\nContent-Length: 37\r\n\
Connection: close\r\n\r\n\
room,party,guest,kind,depart,secured\n";

fn main() {
    let words: Vec<String> = env::args().collect();
    let port: u16 = words[2].parse().expect("a port");
    let count: u32 = words[3].parse().expect("a count");
    let listener = TcpListener::bind(("127.0.0.1", port)).expect("the port is free");
    println!("listening on 127.0.0.1:{port}");
    for _ in 0..count {
        let (mut stream, _) = listener.accept().expect("a connection");
        let mut head = Vec::new();
        let mut piece = [0; 4096];
        while !head.ends_with(b"\r\n\r\n") {
            match stream.read(&mut piece).expect("a request") {
                0 => break,
                count => head.extend_from_slice(&piece[..count]),
            }
        }
        stream.write_all(ANSWER).expect("the answer is taken");
    }
}
