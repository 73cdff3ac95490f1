//! Parses a head again and again with `httparse` alone, from a buffer into which it is copied each time: a yardstick for
//! `bench/http/run.py`, no part of the product. Its word is how often; the head is its input.
use std::io::{self, Read};

fn main() -> io::Result<()> {
    let count: u32 = std::env::args().nth(1).and_then(|word| word.parse().ok()).unwrap_or(0);
    let mut head = Vec::new();
    io::stdin().read_to_end(&mut head)?;
    let mut held: Vec<u8> = Vec::with_capacity(16_384);
    let mut sum = 0u64;
    for _ in 0..count {
        held.extend_from_slice(&head);
        let mut fields = [httparse::EMPTY_HEADER; 100];
        let mut request = httparse::Request::new(&mut fields);
        let Ok(httparse::Status::Complete(end)) = request.parse(&held) else {
            break;
        };
        let target = request.path.unwrap_or("");
        sum += target.split('?').next().unwrap_or("").len() as u64;
        held.drain(..end);
    }
    println!("bytes {sum}");
    Ok(())
}
