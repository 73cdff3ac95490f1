//! What a Rust program over serde_json and rmp-serde takes for the same streams: `peer check json`, `peer check pack`,
//! `peer convert json pack`, `peer convert pack json`, and `peer replay`. It takes the nine messages as they are, and judges nothing: a yardstick
//! for `bench/run.py`, no part of the product.
mod replay;

use serde_json::{json, Map, Value};
use std::io::{self, BufWriter, Read, Write};

/// The bytes read and not used yet, and how many came before them.
struct Stream<R> {
    input: R,
    held: Vec<u8>,
    start: usize,
    place: u64,
}

impl<R: Read> Stream<R> {
    fn more(&mut self) -> io::Result<bool> {
        self.held.drain(..self.start);
        self.start = 0;
        let before = self.held.len();
        self.held.resize(before + 4096, 0);
        let count = self.input.read(&mut self.held[before..])?;
        self.held.truncate(before + count);
        Ok(count > 0)
    }

    /// The next frame of this framing: where it stands in what is held, and how many bytes it takes there.
    fn next(&mut self, pack: bool) -> io::Result<Option<(usize, usize, usize)>> {
        loop {
            let bytes = &self.held[self.start..];
            let found = if pack { length_frame(bytes) } else { record_frame(bytes) };
            if found.is_some() {
                return Ok(found);
            }
            if !self.more()? {
                return Ok(None);
            }
        }
    }
}

fn record_frame(bytes: &[u8]) -> Option<(usize, usize, usize)> {
    let end = bytes.iter().position(|byte| *byte == 0x1e)?;
    Some((0, end, end + 1))
}

fn length_frame(bytes: &[u8]) -> Option<(usize, usize, usize)> {
    let mut length = 0;
    for (i, byte) in bytes.iter().take(5).enumerate() {
        length |= usize::from(byte & 0x7f) << (7 * i);
        if byte & 0x80 == 0 {
            let end = i + 1 + length;
            return (end <= bytes.len()).then_some((i + 1, end, end));
        }
    }
    None
}

const CALL: [&str; 6] = ["type", "headers", "invocationId", "target", "arguments", "streamIds"];
const ITEM: [&str; 4] = ["type", "headers", "invocationId", "item"];
const CLOSE: [&str; 3] = ["type", "error", "allowReconnect"];
const COUNT: [&str; 3] = ["type", "sequenceId", "received"];

/// The properties of a type of message, by the places of an array. Those of a Completion depend on its kind of result.
fn names(kind: u64) -> &'static [&'static str] {
    match kind {
        1 | 4 => &CALL,
        2 => &ITEM,
        5 => &ITEM[..3],
        7 => &CLOSE,
        8 => &COUNT[..2],
        9 => &COUNT,
        _ => &CALL[..1],
    }
}

fn object(mut elements: Vec<Value>) -> Value {
    let kind = elements[0].as_u64().unwrap_or(0);
    let mut object = Map::new();
    if kind == 3 {
        let name = if elements[3] == 1 { "error" } else { "result" };
        object.extend(elements.drain(4..).map(|value| (name.to_owned(), value)));
    }
    let names = if kind == 3 { &ITEM[..3] } else { names(kind) };
    for (name, element) in names.iter().zip(elements) {
        let empty = match &element {
            Value::Object(headers) => headers.is_empty() && *name == "headers",
            Value::Array(items) => items.is_empty() && *name == "streamIds",
            Value::Bool(allow) => !*allow && *name == "allowReconnect",
            other => other.is_null() && *name != "item",
        };
        if !empty {
            object.insert((*name).to_owned(), element);
        }
    }
    Value::Object(object)
}

/// What stands in an array in place of a property that is absent.
fn default(name: &str) -> Value {
    match name {
        "headers" => json!({}),
        "arguments" | "streamIds" => json!([]),
        "allowReconnect" => Value::Bool(false),
        _ => Value::Null,
    }
}

fn array(mut message: Value) -> Value {
    let kind = message["type"].as_u64().unwrap_or(0);
    let names = if kind == 3 { &ITEM[..3] } else { names(kind) };
    let part = |name: &&str| message.get_mut(*name).map_or_else(|| default(name), Value::take);
    let mut elements: Vec<Value> = names.iter().map(part).collect();
    if kind == 3 {
        let ending = [("error", 1), ("result", 3)].into_iter().find_map(|(name, n)| Some((n, message.get_mut(name)?.take())));
        elements.push(ending.as_ref().map_or(2, |(n, _)| *n).into());
        elements.extend(ending.map(|(_, value)| value));
    }
    if kind == 9 && elements[2].is_null() {
        elements.pop();
    }
    Value::Array(elements)
}

fn write_length(mut length: usize, out: &mut impl Write) -> io::Result<()> {
    while length >= 0x80 {
        out.write_all(&[(length & 0x7f) as u8 | 0x80])?;
        length >>= 7;
    }
    out.write_all(&[length as u8])
}

fn main() -> Result<(), Box<dyn std::error::Error>> {
    let words: Vec<String> = std::env::args().skip(1).collect();
    if words[0] == "replay" {
        return Ok(replay::replay()?);
    }
    let (from, to) = (words[1] == "pack", words.get(2).map(|word| word == "pack"));
    let mut stream = Stream { input: io::stdin().lock(), held: Vec::new(), start: 0, place: 0 };
    let mut out = BufWriter::new(io::stdout().lock());
    while let Some((first, end, size)) = stream.next(from)? {
        let frame = &stream.held[stream.start + first..stream.start + end];
        let message = if from {
            object(rmp_serde::from_slice::<Vec<Value>>(frame)?)
        } else {
            serde_json::from_slice(frame)?
        };
        match to {
            None => {
                write!(out, "{} message ", stream.place)?;
                serde_json::to_writer(&mut out, &message)?;
                out.write_all(b"\n")?;
            }
            Some(true) => {
                let body = rmp_serde::to_vec(&array(message))?;
                write_length(body.len(), &mut out)?;
                out.write_all(&body)?;
            }
            Some(false) => {
                serde_json::to_writer(&mut out, &message)?;
                out.write_all(b"\x1e")?;
            }
        }
        stream.start += size;
        stream.place += size as u64;
    }
    out.flush()?;
    Ok(())
}
