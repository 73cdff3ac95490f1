//! The same as crates/measures/src/calls.rt in plain Rust: the live calls and uploads in `BTreeMap`s by their numbers.
use std::collections::BTreeMap;
use std::hint::black_box;

const LIVE: u64 = 1_024;
const UPLOADS: u64 = 8;
const ROUNDS: u32 = 1_000;

#[allow(dead_code)]
struct Invocation {
    headers: Vec<(String, String)>,
    id: Option<String>,
    target: String,
    arguments: Vec<String>,
    streams: Vec<String>,
}

struct Calls {
    prefix: String,
    drawn: u64,
    calls: BTreeMap<u64, bool>,
    uploads: BTreeMap<u64, u64>,
}

impl Calls {
    fn begin(&mut self, target: String, arguments: Vec<String>, uploads: u64) -> Option<(u64, Invocation)> {
        if (self.calls.len() + self.uploads.len()) as u64 + 1 + uploads > LIVE {
            return None;
        }
        let number = self.drawn + 1;
        let id = |number: u64| format!("{}{number}", self.prefix);
        let message = Invocation {
            headers: Vec::new(),
            id: Some(id(number)),
            target,
            arguments,
            streams: (number + 1..=number + uploads).map(id).collect(),
        };
        self.calls.insert(number, false);
        for upload in number + 1..=number + uploads {
            self.uploads.insert(upload, number);
        }
        self.drawn = number + uploads;
        Some((number, message))
    }

    fn settle(&mut self, id: &str) -> Option<u64> {
        let number = id.strip_prefix(self.prefix.as_str())?.parse().ok()?;
        self.calls.remove(&number)?;
        for upload in number + 1..=number + UPLOADS {
            if self.uploads.get(&upload) == Some(&number) {
                self.uploads.remove(&upload);
            }
        }
        Some(number)
    }
}

fn main() {
    let uploads: u64 = std::env::args().nth(1).and_then(|word| word.parse().ok()).unwrap_or(0);
    let mut calls = Calls { prefix: String::new(), drawn: 0, calls: BTreeMap::new(), uploads: BTreeMap::new() };
    let mut ids = Vec::new();
    let (mut count, mut sum) = (0u64, 0u64);
    for _ in 0..ROUNDS {
        let many = LIVE / (uploads + 1);
        for _ in 0..many {
            let Some((_, message)) = calls.begin(black_box("say").to_string(), Vec::new(), uploads) else { return };
            ids.extend(black_box(message).id);
        }
        for _ in 0..many {
            let Some(number) = ids.pop().and_then(|id: String| calls.settle(&id)) else { return };
            sum = sum.wrapping_add(number);
        }
        count += many;
    }
    println!("calls {count} sum {sum}");
}
