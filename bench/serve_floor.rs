//! A plain server for times beside the relay's: one connection, and for each empty line that ends a head the same bytes, written at
//! once. Nothing of a request is read but where it ends. Its words are a port and the bytes of a body.
use std::io::{self, Read, Write};
use std::net::TcpListener;

const PIECE: usize = 16_384;

fn main() -> io::Result<()> {
    let words: Vec<String> = std::env::args().collect();
    let [_, port, size] = words.as_slice() else {
        panic!("a port, and the bytes of a body");
    };
    let port: u16 = port.parse().expect("a port");
    let size: usize = size.parse().expect("a size");
    let mut answer = format!("HTTP/1.1 200 OK\r\nContent-Type: application/octet-stream\r\nContent-Length: {size}\r\n\r\n").into_bytes();
    answer.resize(answer.len() + size, 7);

    let (mut conn, _) = TcpListener::bind(("127.0.0.1", port))?.accept()?;
    conn.set_nodelay(true)?;
    let mut piece = vec![0; PIECE];
    let mut line = 0;
    loop {
        let count = conn.read(&mut piece)?;
        if count == 0 {
            return Ok(());
        }
        for &byte in &piece[..count] {
            match byte {
                b'\n' if line == 0 => conn.write_all(&answer)?,
                b'\n' => line = 0,
                b'\r' => {}
                _ => line += 1,
            }
        }
    }
}
