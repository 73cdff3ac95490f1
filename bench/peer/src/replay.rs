//! `peer replay`: what a Rust program over serde_json takes for the scripts of `bench/replay.py`: JSON, version 2, a connection that is kept,
//! and the actions open, accept, send, `write *` and `read *`. It judges nothing.
use serde_json::{json, Value};
use std::collections::VecDeque;
use std::io::{self, BufWriter, Read, Write};

#[derive(Default)]
struct End {
    link: Option<usize>,
    links: usize,
    shaken: bool,
    opened: bool,
    held: VecDeque<Vec<u8>>,
    acked: u64,
    written: u64,
    sent: u64,
    processed: u64,
    told: u64,
    next: Option<u64>,
    read: usize,
}

impl End {
    fn attach(&mut self, link: usize) {
        self.link = Some(link);
        self.links += 1;
        self.opened = false;
        self.written = self.acked;
        self.told = 0;
        self.next = (self.links == 1).then_some(1);
        self.read = 0;
    }

    fn send(&mut self, text: &str) -> io::Result<()> {
        let message: Value = serde_json::from_str(text)?;
        let mut frame = serde_json::to_vec(&message)?;
        frame.push(0x1e);
        self.held.push_back(frame);
        self.sent += 1;
        Ok(())
    }

    fn write(&mut self, client: bool, lane: &mut Vec<u8>) {
        if !self.opened {
            match (self.links == 1, client) {
                (true, true) => lane.extend_from_slice(b"{\"protocol\":\"json\",\"version\":2}\x1e"),
                (true, false) if self.shaken => lane.extend_from_slice(b"{}\x1e"),
                (true, false) => return,
                (false, _) => put(lane, &json!({"type": 9, "sequenceId": self.acked + 1})),
            }
            self.opened = true;
        }
        if self.told < self.processed {
            put(lane, &json!({"type": 8, "sequenceId": self.processed}));
            self.told = self.processed;
        }
        let from = (self.written.max(self.acked) - self.acked) as usize;
        for frame in self.held.iter().skip(from) {
            lane.extend_from_slice(frame);
        }
        self.written = self.sent;
    }

    fn read(&mut self, name: char, lane: &[u8], out: &mut impl Write) -> io::Result<()> {
        while let Some(size) = lane[self.read..].iter().position(|byte| *byte == 0x1e) {
            let frame: Value = serde_json::from_slice(&lane[self.read..self.read + size])?;
            self.read += size + 1;
            if !self.shaken {
                self.shaken = true;
                writeln!(out, "{name} shaken")?;
                continue;
            }
            match frame["type"].as_u64() {
                Some(8) => self.ack(name, &frame, out)?,
                Some(9) => {
                    self.next = frame["sequenceId"].as_u64();
                    writeln!(out, "{name} sequence {}", self.next.unwrap_or(0))?;
                }
                _ => self.take(name, &frame, out)?,
            }
        }
        Ok(())
    }

    fn ack(&mut self, name: char, frame: &Value, out: &mut impl Write) -> io::Result<()> {
        let upto = frame["sequenceId"].as_u64().unwrap_or(0);
        while self.acked < upto {
            self.held.pop_front();
            self.acked += 1;
        }
        writeln!(out, "{name} acked {upto}")
    }

    fn take(&mut self, name: char, frame: &Value, out: &mut impl Write) -> io::Result<()> {
        let Some(number) = self.next else {
            return writeln!(out, "{name} skipped before-sequence");
        };
        self.next = Some(number + 1);
        if number <= self.processed {
            return writeln!(out, "{name} skipped duplicate {number}");
        }
        self.processed = number;
        write!(out, "{name} got {number} ")?;
        serde_json::to_writer(&mut *out, frame)?;
        writeln!(out)
    }
}

fn put(lane: &mut Vec<u8>, frame: &Value) {
    lane.extend_from_slice(frame.to_string().as_bytes());
    lane.push(0x1e);
}

pub fn replay() -> io::Result<()> {
    let mut script = String::new();
    io::stdin().read_to_string(&mut script)?;
    let mut out = BufWriter::new(io::stdout());
    let mut ends = [End::default(), End::default()];
    let mut lanes: Vec<[Vec<u8>; 2]> = Vec::new();
    for line in script.lines() {
        let (side, rest) = match line.split_once(' ') {
            Some(("accept", link)) => {
                ends[1].attach(link.parse().map_err(io::Error::other)?);
                continue;
            }
            Some((side, rest)) => (usize::from(side == "s"), rest),
            None => {
                ends[0].attach(lanes.len());
                lanes.push([Vec::new(), Vec::new()]);
                continue;
            }
        };
        let (end, name) = (&mut ends[side], ['c', 's'][side]);
        let lane = end.link.map(|link| &mut lanes[link]);
        match (rest, lane) {
            ("write *", Some(lane)) => end.write(side == 0, &mut lane[side]),
            ("read *", Some(lane)) => end.read(name, &lane[1 - side], &mut out)?,
            (send, _) => {
                end.send(send.strip_prefix("send ").unwrap_or(""))?;
                writeln!(out, "{name} sent {}", end.sent)?;
            }
        }
    }
    for (end, name) in ends.iter().zip(["client", "server"]) {
        writeln!(out, "{name} Ready sent {} processed {} held {}", end.sent, end.processed, end.held.len())?;
    }
    out.flush()
}
