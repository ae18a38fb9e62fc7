//! The second yardstick of bench/price.sh: a plain reader in Rust of a table and a walk, which keeps the rows, refuses what
//! is not of the form and sums the costs. It is no part of the product.
//!
//! usage: read_table FOLDER

use std::env;
use std::fs;
use std::hint::black_box;
use std::process::exit;

#[allow(dead_code)]
struct Link {
    from: u32,
    to: u32,
    cost: u32,
    via: u128,
}

struct Table {
    nodes: Vec<u128>,
    links: Vec<Link>,
}

struct Walk {
    from: u32,
    steps: Vec<u32>,
}

const MAX_NODES: usize = 400_000;
const MAX_COST: u64 = 6_700_000;

// The first line without its LF, and what follows it.
fn line(text: &[u8]) -> Option<(&[u8], &[u8])> {
    let end = text.iter().position(|byte| *byte == b'\n')?;
    Some((&text[..end], &text[end + 1..]))
}

// A decimal number without leading zeros that fills the text.
fn number(text: &[u8]) -> Option<u64> {
    if text.is_empty() || (text[0] == b'0' && text.len() > 1) {
        return None;
    }
    let mut value = 0u64;
    for byte in text {
        if !byte.is_ascii_digit() {
            return None;
        }
        value = value.checked_mul(10)?.checked_add((byte - b'0') as u64)?;
    }
    Some(value)
}

// A number before a space, and what follows the space.
fn number_word(text: &[u8]) -> Option<(u64, &[u8])> {
    let mut value = 0u64;
    for (place, byte) in text.iter().enumerate() {
        if byte.is_ascii_digit() {
            value = value.checked_mul(10)?.checked_add((byte - b'0') as u64)?;
        } else if *byte == b' ' && place > 0 && (text[0] != b'0' || place == 1) {
            return Some((value, &text[place + 1..]));
        } else {
            return None;
        }
    }
    None
}

// The value of a hexadecimal digit in lower case, or 255.
static DIGITS: [u8; 256] = {
    let mut table = [255; 256];
    let mut value = 0;
    while value < 16 {
        table[b"0123456789abcdef"[value as usize] as usize] = value;
        value += 1;
    }
    table
};

// The value of digits in lower case, and all of their values or-ed together.
fn digits(text: &[u8]) -> (u64, u8) {
    let (mut value, mut all) = (0u64, 0u8);
    for byte in text {
        let digit = DIGITS[*byte as usize];
        value = value << 4 | digit as u64;
        all |= digit;
    }
    (value, all)
}

// A UUID in lower case with hyphens.
fn id(text: &[u8]) -> Option<u128> {
    let text: &[u8; 36] = text.try_into().ok()?;
    if text[8] != b'-' || text[13] != b'-' || text[18] != b'-' || text[23] != b'-' {
        return None;
    }
    let (a, all_a) = digits(&text[..8]);
    let (b, all_b) = digits(&text[9..13]);
    let (c, all_c) = digits(&text[14..18]);
    let (d, all_d) = digits(&text[19..23]);
    let (e, all_e) = digits(&text[24..]);
    let high = a << 32 | b << 16 | c;
    let low = d << 48 | e;
    ((all_a | all_b | all_c | all_d | all_e) < 16).then_some((high as u128) << 64 | low as u128)
}

// A UUID that ends its line, and what follows the line.
fn id_line(text: &[u8]) -> Option<(u128, &[u8])> {
    let (front, rest) = text.split_at_checked(36)?;
    Some((id(front)?, rest.strip_prefix(b"\n")?))
}

fn link(text: &[u8], nodes: u64) -> Option<(Link, &[u8])> {
    let (from, rest) = number_word(text)?;
    let (to, rest) = number_word(rest)?;
    let (cost, rest) = number_word(rest)?;
    let (via, rest) = id_line(rest)?;
    if from >= nodes || to >= nodes || cost > MAX_COST {
        return None;
    }
    let link = Link {
        from: from as u32,
        to: to as u32,
        cost: cost as u32,
        via,
    };
    Some((link, rest))
}

fn read_table(text: &[u8]) -> Option<Table> {
    let mut rest = text.strip_prefix(b"imdf-links 1\n")?;
    let mut nodes = Vec::new();
    let mut links = Vec::new();
    while let Some(front) = rest.strip_prefix(b"node ") {
        let (node, more) = id_line(front)?;
        nodes.push(node);
        rest = more;
    }
    if nodes.len() > MAX_NODES {
        return None;
    }
    while let Some(front) = rest.strip_prefix(b"link ") {
        let (link, more) = link(front, nodes.len() as u64)?;
        links.push(link);
        rest = more;
    }
    (rest == b"end\n").then_some(Table { nodes, links })
}

fn read_walk(text: &[u8], table: &Table) -> Option<Walk> {
    let front = text.strip_prefix(b"imdf-walk 1\nfrom ")?;
    let (body, mut rest) = line(front)?;
    let from = number(body)?;
    if from >= table.nodes.len() as u64 {
        return None;
    }
    let mut steps = Vec::new();
    while let Some(front) = rest.strip_prefix(b"step ") {
        let (body, more) = line(front)?;
        steps.push(u32::try_from(number(body)?).ok()?);
        rest = more;
    }
    (rest == b"end\n").then_some(Walk {
        from: from as u32,
        steps,
    })
}

// The cost of the walk, or the first step that is no link or starts elsewhere.
fn price(table: &Table, walk: &Walk) -> Result<u64, usize> {
    let (mut at, mut sum) = (walk.from, 0);
    for (place, step) in walk.steps.iter().enumerate() {
        match table.links.get(*step as usize) {
            Some(link) if link.from == at => {
                at = link.to;
                sum += link.cost as u64;
            }
            _ => return Err(place + 1),
        }
    }
    Ok(sum)
}

fn main() {
    let Some(folder) = env::args().nth(1) else {
        exit(2);
    };
    let read = |name: &str| fs::read(format!("{folder}/{name}")).unwrap_or_else(|_| exit(1));
    let Some(table) = read_table(&read("links.txt")) else {
        exit(2);
    };
    let Some(walk) = read_walk(&read("walk.txt"), &table) else {
        exit(2);
    };
    match price(black_box(&table), &walk) {
        Ok(cost) => println!("cost {cost}"),
        Err(place) => {
            println!("broken {place}");
            exit(1);
        }
    }
}
