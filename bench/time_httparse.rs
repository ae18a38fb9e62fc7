//! Loads a stream of heads, reads all of them so many times with the Rust crate `httparse` and prints how many those were:
//! `time_httparse (alone | search) FILE HEADS ROUNDS`.
//! With `search`, the empty line of each head is looked for first, a line at a time by the C library's `memchr`.
extern "C" {
    fn memchr(s: *const u8, c: i32, n: usize) -> *const u8;
}

fn cut_line(bytes: &[u8]) -> Option<(&[u8], &[u8])> {
    let place = unsafe { memchr(bytes.as_ptr(), 10, bytes.len()) };
    if place.is_null() {
        return None;
    }
    let size = place as usize - bytes.as_ptr() as usize;
    Some((&bytes[..size], &bytes[size + 1..]))
}

fn head_length(bytes: &[u8]) -> Option<usize> {
    let mut rest = &bytes[..bytes.len().min(16_384)];
    let all = rest.len();
    let mut lines = 0;
    while let Some((line, behind)) = cut_line(rest) {
        if !matches!(line, [] | [b'\r']) {
            lines += 1;
        } else if lines > 0 {
            return Some(all - behind.len());
        }
        rest = behind;
    }
    None
}

fn head(bytes: &[u8], search: bool) -> Option<usize> {
    let bytes = if search { &bytes[..head_length(bytes)?] } else { bytes };
    let mut headers = [httparse::EMPTY_HEADER; 64];
    let mut request = httparse::Request::new(&mut headers);
    match request.parse(bytes) {
        Ok(httparse::Status::Complete(length)) => Some(length),
        _ => None,
    }
}

fn main() {
    let words: Vec<String> = std::env::args().collect();
    let search = words[1] == "search";
    let bytes = std::fs::read(&words[2]).unwrap();
    let heads: usize = words[3].parse().unwrap();
    let rounds: usize = words[4].parse().unwrap();
    let mut read = 0;
    for _ in 0..rounds {
        let mut rest = std::hint::black_box(&bytes[..]);
        for _ in 0..heads {
            let Some(length) = head(rest, search) else { break };
            read += 1;
            rest = &rest[length..];
        }
    }
    println!("{read}");
}
