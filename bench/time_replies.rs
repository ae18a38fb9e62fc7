//! Writes a reply to a file, times how long Rust's `serde_json` takes to build and write it with its head, and prints the least
//! time of a reply in so many batches of so many, in nanoseconds: `time_replies (version | route | few | many) FILE BATCHES TIMES`.
use serde_json::{json, Map, Value};
use std::io::Write;
use std::time::Instant;

struct Row {
    id: u128,
    kind: &'static str,
    ordinal: i16,
    name: Vec<(String, String)>,
}

struct Step {
    cost: u32,
    kind: &'static str,
    to: u128,
    via: u128,
}

enum Reply {
    Version { closed: u32, places: u32, version: u32 },
    Route { version: u32, from: u128, to: u128, profile: String, start: u128, cost: u64, steps: Vec<Step> },
    Places { version: u32, rows: Vec<Row> },
}

fn id(last: u32) -> u128 {
    0x4000_8000_0000_0000_0000 | last as u128
}

/// The 36 letters of an identifier.
fn letters(id: u128) -> String {
    let mut text = String::with_capacity(36);
    for (place, byte) in id.to_be_bytes().iter().enumerate() {
        if matches!(place, 4 | 6 | 8 | 10) {
            text.push('-');
        }
        text.push(b"0123456789abcdef"[*byte as usize >> 4] as char);
        text.push(b"0123456789abcdef"[*byte as usize & 15] as char);
    }
    text
}

fn name(labels: &[(String, String)]) -> Value {
    if labels.is_empty() {
        return Value::Null;
    }
    let mut members = Map::new();
    for (tag, text) in labels {
        members.insert(tag.clone(), Value::String(text.clone()));
    }
    Value::Object(members)
}

fn row(row: &Row) -> Value {
    json!({"id": letters(row.id), "kind": row.kind, "name": name(&row.name), "ordinal": row.ordinal})
}

fn step(step: &Step) -> Value {
    json!({"cost": step.cost, "kind": step.kind, "to": letters(step.to), "via": letters(step.via)})
}

fn body(reply: &Reply) -> Value {
    match reply {
        Reply::Version { closed, places, version } => json!({"closed": closed, "places": places, "version": version}),
        Reply::Route { version, from, to, profile, start, cost, steps } => json!({
            "cost": cost, "from": letters(*from), "profile": profile, "result": "route", "start": letters(*start),
            "steps": steps.iter().map(step).collect::<Vec<_>>(), "to": letters(*to), "version": version,
        }),
        Reply::Places { version, rows } => {
            json!({"places": rows.iter().map(row).collect::<Vec<_>>(), "version": version})
        }
    }
}

fn bytes(reply: &Reply) -> Vec<u8> {
    let body = serde_json::to_vec(&body(reply)).unwrap();
    let mut bytes = Vec::with_capacity(body.len() + 100);
    let size = body.len();
    write!(bytes, "HTTP/1.1 200 OK\r\ncontent-type: application/json\r\ncontent-length: {size}\r\n\r\n").unwrap();
    bytes.extend_from_slice(&body);
    bytes
}

fn label(tag: &str, text: String) -> (String, String) {
    (tag.to_owned(), text)
}

/// One place in four has no name, one in four has two.
fn made(place: u32) -> Row {
    let name = match place % 4 {
        0 => vec![],
        1 => vec![label("de", format!("Laden {place}")), label("en", format!("Shop \"{place}\""))],
        _ => vec![label("en", format!("Shop {place}"))],
    };
    let kind = ["amenity", "anchor", "occupant", "opening", "unit"][place as usize % 5];
    Row { id: id(place), kind, ordinal: (place % 7) as i16 - 3, name }
}

fn reply(word: &str) -> Reply {
    let step = |cost, kind, to, via| Step { cost, kind, to: id(to), via: id(via) };
    match word {
        "version" => Reply::Version { closed: 0, places: 33, version: 1 },
        "route" => Reply::Route {
            version: 1,
            from: id(0x51),
            to: id(0x52),
            profile: "wheelchair".to_owned(),
            start: id(0x41),
            cost: 9040,
            steps: vec![
                step(633, "floor", 0x105, 0x305),
                step(3007, "floor", 0x101, 0x300),
                step(200, "elevator", 0x301, 0x301),
                step(3000, "elevator", 0x401, 0x21),
                step(200, "elevator", 0x201, 0x401),
                step(2000, "floor", 0x42, 0x400),
            ],
        },
        "few" => Reply::Places { version: 1, rows: (0..33).map(made).collect() },
        _ => Reply::Places { version: 1, rows: (0..100_000).map(made).collect() },
    }
}

fn main() {
    let words: Vec<String> = std::env::args().collect();
    let reply = reply(&words[1]);
    std::fs::write(&words[2], bytes(&reply)).unwrap();
    let batches: u32 = words[3].parse().unwrap();
    let times: u32 = words[4].parse().unwrap();
    let mut least = f64::MAX;
    for _ in 0..batches {
        let start = Instant::now();
        for _ in 0..times {
            std::hint::black_box(bytes(std::hint::black_box(&reply)));
        }
        least = least.min(start.elapsed().as_secs_f64() * 1e9 / times as f64);
    }
    println!("{least:.0}");
}
