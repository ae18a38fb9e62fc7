//! Loads a stream of requests, reads all of them so many times with `httparse`, `form_urlencoded` and `serde_json` and a `match`
//! on the path, and prints how many those were, and a sum of what they ask for: `time_requests FILE REQUESTS ROUNDS`.
use std::borrow::Cow;

enum Ask {
    Version,
    Places,
    Closures,
    Place(u128),
    Route { from: u128, to: u128, profile: String, certificate: bool },
}

enum Message {
    Ask(Option<u32>, Ask),
    Closure(u128, bool),
    Publish(String),
    Refused,
}

const HEX: [u8; 256] = {
    let mut digits = [255; 256];
    let mut place = 0;
    while place < 16 {
        digits[b"0123456789abcdef"[place] as usize] = place as u8;
        digits[b"0123456789ABCDEF"[place] as usize] = place as u8;
        place += 1;
    }
    digits
};

/// An identifier of 36 bytes, as hexadecimal digits with four hyphens, by a table as the crate `uuid` does it.
fn identifier(text: &[u8]) -> Option<u128> {
    let text: &[u8; 36] = text.try_into().ok()?;
    if [text[8], text[13], text[18], text[23]] != *b"----" {
        return None;
    }
    let mut bytes = [0; 16];
    let mut faults = 0;
    for (byte, place) in bytes.iter_mut().zip([0, 2, 4, 6, 9, 11, 14, 16, 19, 21, 24, 26, 28, 30, 32, 34]) {
        let high = HEX[text[place] as usize];
        let low = HEX[text[place + 1] as usize];
        faults |= high | low;
        *byte = high << 4 | low;
    }
    (faults < 16).then(|| u128::from_be_bytes(bytes))
}

/// What stands under the keys of a query; a key that comes twice is a fault.
#[derive(Default)]
struct Sought<'q> {
    since: Option<Cow<'q, str>>,
    from: Option<Cow<'q, str>>,
    to: Option<Cow<'q, str>>,
    profile: Option<Cow<'q, str>>,
    certificate: Option<Cow<'q, str>>,
}

fn sought(query: &str) -> Option<Sought<'_>> {
    let mut sought = Sought::default();
    for (key, value) in form_urlencoded::parse(query.as_bytes()) {
        let place = match &*key {
            "since" => &mut sought.since,
            "from" => &mut sought.from,
            "to" => &mut sought.to,
            "profile" => &mut sought.profile,
            "certificate" => &mut sought.certificate,
            _ => continue,
        };
        if place.replace(value).is_some() {
            return None;
        }
    }
    Some(sought)
}

fn answer(text: Option<Cow<'_, str>>) -> Option<bool> {
    match text.as_deref() {
        None | Some("no") => Some(false),
        Some("yes") => Some(true),
        _ => None,
    }
}

fn ask(path: &str, sought: Sought<'_>) -> Option<Ask> {
    Some(match path {
        "/v1/version" => Ask::Version,
        "/v1/places" => Ask::Places,
        "/v1/closures" => Ask::Closures,
        "/v1/route" => Ask::Route {
            from: identifier(sought.from?.as_bytes())?,
            to: identifier(sought.to?.as_bytes())?,
            profile: sought.profile?.into_owned(),
            certificate: answer(sought.certificate)?,
        },
        _ => Ask::Place(identifier(path.strip_prefix("/v1/place/")?.as_bytes())?),
    })
}

fn question(path: &str, query: &str) -> Option<Message> {
    let mut sought = sought(query)?;
    let since = match sought.since.take() {
        Some(text) => Some(text.parse().ok()?),
        None => None,
    };
    Some(Message::Ask(since, ask(path, sought)?))
}

fn change(path: &str, body: &[u8]) -> Option<Message> {
    let value: serde_json::Value = serde_json::from_slice(body).ok()?;
    Some(match path {
        "/v1/closures" => {
            let feature = identifier(value.get("feature")?.as_str()?.as_bytes())?;
            Message::Closure(feature, value.get("closed")?.as_bool()?)
        }
        _ => Message::Publish(value.get("folder")?.as_str()?.to_owned()),
    })
}

/// The message at the front, and its length.
fn take(keys: &[String], bytes: &[u8]) -> Option<(Message, usize)> {
    let mut headers = [httparse::EMPTY_HEADER; 64];
    let mut request = httparse::Request::new(&mut headers);
    let Ok(httparse::Status::Complete(head)) = request.parse(bytes) else {
        return None;
    };
    let mut body = 0;
    let mut staff = false;
    for header in &*request.headers {
        if header.name.eq_ignore_ascii_case("content-length") {
            body = std::str::from_utf8(header.value).ok()?.parse().ok()?;
        } else if header.name.eq_ignore_ascii_case("x-staff-key") {
            staff = keys.iter().any(|key| key.as_bytes() == header.value);
        }
    }
    let length = head + body;
    let body = bytes.get(head..length)?;
    let target = request.path?;
    let (path, query) = target.split_once('?').unwrap_or((target, ""));
    let message = match (request.method?, path) {
        ("GET", "/v1/version" | "/v1/places" | "/v1/closures" | "/v1/route") => question(path, query),
        ("GET", _) if path.starts_with("/v1/place/") => question(path, query),
        ("POST", "/v1/closures" | "/v1/publish") if staff => change(path, body),
        _ => None,
    };
    Some((message.unwrap_or(Message::Refused), length))
}

/// A number that tells apart what is asked.
fn number(message: &Message) -> u64 {
    match message {
        Message::Ask(since, ask) => since.unwrap_or(0) as u64 + match ask {
            Ask::Version => 1,
            Ask::Places => 2,
            Ask::Closures => 3,
            Ask::Place(id) => *id as u64,
            Ask::Route { from, to, profile, certificate } => (*from as u64)
                .wrapping_mul(3)
                .wrapping_add(*to as u64)
                .wrapping_add(profile.len() as u64)
                .wrapping_add(*certificate as u64),
        },
        Message::Closure(feature, closed) => (*feature as u64).wrapping_add(*closed as u64),
        Message::Publish(folder) => folder.len() as u64,
        Message::Refused => 0,
    }
}

fn main() {
    let words: Vec<String> = std::env::args().collect();
    let bytes = std::fs::read(&words[1]).unwrap();
    let requests: usize = words[2].parse().unwrap();
    let rounds: usize = words[3].parse().unwrap();
    let keys = ["gate-key-2".to_owned(), "desk-key-1".to_owned()];
    let mut read = 0;
    let mut sum = 0u64;
    for _ in 0..rounds {
        let mut rest = std::hint::black_box(&bytes[..]);
        for _ in 0..requests {
            let Some((message, length)) = take(&keys, rest) else { break };
            read += 1;
            sum = sum.wrapping_add(number(&message));
            rest = &rest[length..];
        }
    }
    println!("{read} {sum}");
}
