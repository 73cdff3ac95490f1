//! The same as crates/measures/src/resend.rt in plain Rust: a `VecDeque<Rc<[u8]>>` that holds the frames pushed past the greatest Ack.
use std::collections::VecDeque;
use std::hint::black_box;
use std::rc::Rc;

const HELD: usize = 1_024;
const BYTES: usize = 16_777_216;
const SIZE: usize = 200;
const ROUNDS: usize = 5_000;

#[derive(Default)]
struct Resend {
    frames: VecDeque<Rc<[u8]>>,
    bytes: usize,
    sent: u64,
    acked: u64,
    written: u64,
    furthest: u64,
}

impl Resend {
    fn push(&mut self, frame: Rc<[u8]>) -> Result<u64, Rc<[u8]>> {
        if self.frames.len() >= HELD || self.bytes + frame.len() > BYTES {
            return Err(frame);
        }
        self.bytes += frame.len();
        self.frames.push_back(frame);
        self.sent += 1;
        Ok(self.sent)
    }

    fn next_unwritten(&mut self) -> Option<(u64, &[u8])> {
        let frame = self.frames.get((self.written - self.acked) as usize)?;
        self.written += 1;
        self.furthest = self.furthest.max(self.written);
        Some((self.written, frame))
    }

    fn ack(&mut self, upto: u64) -> Result<(), u64> {
        if upto > self.furthest {
            return Err(self.furthest);
        }
        while self.acked < upto {
            if let Some(frame) = self.frames.pop_front() {
                self.bytes -= frame.len();
            }
            self.acked += 1;
        }
        self.written = self.written.max(upto);
        Ok(())
    }
}

fn main() {
    let shared = std::env::args().nth(1).as_deref() == Some("shared");
    let bytes = black_box([b'a'; SIZE]);
    let frame: Rc<[u8]> = Rc::from(&bytes[..]);
    let mut resend = Resend { frames: VecDeque::with_capacity(HELD), ..Resend::default() };
    let mut sum = 0u64;
    for _ in 0..ROUNDS {
        for _ in 0..HELD {
            let next = if shared { frame.clone() } else { Rc::from(&bytes[..]) };
            if resend.push(next).is_err() {
                break;
            }
        }
        while let Some((number, bytes)) = resend.next_unwritten() {
            sum = sum.wrapping_add(number).wrapping_add(bytes.len() as u64).wrapping_add(u64::from(bytes[0]));
        }
        if resend.ack(resend.furthest).is_err() {
            break;
        }
    }
    println!("frames {} sum {sum}", resend.sent);
}
