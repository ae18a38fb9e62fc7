//! Reads the JSON files of a folder into values whose numbers stay tokens, times how long Rust's `serde_json` takes to write them all into one
//! vector that has room for them, and prints the least milliseconds of so many rounds and the number of bytes: `time_write FOLDER ROUNDS`.
//! What it writes has to be what it read.
use serde::ser::{Serialize, SerializeMap, Serializer};
use serde_json::value::RawValue;
use std::time::Instant;

enum Value {
    Null,
    Number(Box<RawValue>),
    Text(String),
    List(Vec<Value>),
    Object(Vec<(String, Value)>),
}

impl Serialize for Value {
    fn serialize<S: Serializer>(&self, out: S) -> Result<S::Ok, S::Error> {
        match self {
            Value::Null => out.serialize_unit(),
            Value::Number(token) => token.serialize(out),
            Value::Text(text) => out.serialize_str(text),
            Value::List(items) => items.serialize(out),
            Value::Object(members) => {
                let mut map = out.serialize_map(Some(members.len()))?;
                for (name, value) in members {
                    map.serialize_entry(name, value)?;
                }
                map.end()
            }
        }
    }
}

/// A reader of JSON without white space, true and false.
struct Reader<'a> {
    bytes: &'a [u8],
    place: usize,
}

impl Reader<'_> {
    fn next(&mut self) -> u8 {
        self.place += 1;
        self.bytes[self.place - 1]
    }

    /// Whether what is between two brackets goes on: there is no closing one, and the comma is passed.
    fn goes_on(&mut self, closing: u8) -> bool {
        match self.bytes[self.place] {
            byte if byte == closing => {
                self.place += 1;
                false
            }
            b',' => {
                self.place += 1;
                true
            }
            _ => true,
        }
    }

    fn text(&mut self) -> String {
        let start = self.place;
        self.place += 1;
        while self.bytes[self.place] != b'"' {
            self.place += if self.bytes[self.place] == b'\\' { 2 } else { 1 };
        }
        self.place += 1;
        serde_json::from_slice(&self.bytes[start..self.place]).unwrap()
    }

    fn value(&mut self) -> Value {
        match self.bytes[self.place] {
            b'n' => {
                self.place += 4;
                Value::Null
            }
            b'"' => Value::Text(self.text()),
            b'[' => {
                self.place += 1;
                let mut items = Vec::new();
                while self.goes_on(b']') {
                    items.push(self.value());
                }
                Value::List(items)
            }
            b'{' => {
                self.place += 1;
                let mut members = Vec::new();
                while self.goes_on(b'}') {
                    let name = self.text();
                    assert_eq!(self.next(), b':');
                    members.push((name, self.value()));
                }
                Value::Object(members)
            }
            _ => {
                let start = self.place;
                while matches!(self.bytes[self.place], b'-' | b'.' | b'0'..=b'9') {
                    self.place += 1;
                }
                let token = String::from_utf8(self.bytes[start..self.place].to_vec()).unwrap();
                Value::Number(RawValue::from_string(token).unwrap())
            }
        }
    }
}

fn written(values: &[Value], room: usize) -> Vec<u8> {
    let mut bytes = Vec::with_capacity(room);
    for value in values {
        serde_json::to_writer(&mut bytes, value).unwrap();
    }
    bytes
}

fn main() {
    let words: Vec<String> = std::env::args().collect();
    let mut paths: Vec<_> = std::fs::read_dir(&words[1]).unwrap().map(|it| it.unwrap().path()).collect();
    paths.sort();
    let (mut values, mut all) = (Vec::new(), Vec::new());
    for path in paths {
        let bytes = std::fs::read(path).unwrap();
        values.push(Reader { bytes: &bytes, place: 0 }.value());
        all.extend_from_slice(&bytes);
    }
    assert!(written(&values, all.len()) == all, "other bytes than those that were read");
    let mut least = f64::MAX;
    for _ in 0..words[2].parse().unwrap() {
        let start = Instant::now();
        std::hint::black_box(written(std::hint::black_box(&values), all.len()));
        least = least.min(start.elapsed().as_secs_f64() * 1000.0);
    }
    println!("{least} {}", all.len());
}
