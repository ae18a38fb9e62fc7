//! Reads a printed table of links from memory and makes stored rows of it: for each node the links that start there, one behind the
//! other, each with its end, cost and the number of what it goes by. Prints the least milliseconds of so many rounds for the reading
//! with the rows, and for the rows alone: `time_rows FILE ROUNDS`. With no rounds it marks each for `count_bytes.c`.
use std::collections::HashMap;
use std::time::Instant;

const MARK: usize = 1_234_567;

#[derive(Clone, Copy)]
struct Link {
    from: u32,
    to: u32,
    via: u32,
    cost: u32,
}

struct Table {
    nodes: Vec<u128>,
    ways: Vec<u128>,
    links: Vec<Link>,
}

#[derive(Clone, Copy)]
struct Out {
    to: u32,
    via: u32,
    cost: u32,
}

struct Rows {
    starts: Vec<u32>,
    out: Vec<Out>,
}

fn identifier(word: &str) -> u128 {
    let mut id = 0;
    for digit in word.bytes().filter(|b| *b != b'-') {
        id = id << 4 | (digit as char).to_digit(16).expect("a digit") as u128;
    }
    id
}

fn number(word: Option<&str>) -> u32 {
    word.expect("a number").parse().expect("a number")
}

fn read(text: &str) -> Table {
    let (mut nodes, mut ways, mut links) = (Vec::new(), Vec::new(), Vec::new());
    let mut numbers = HashMap::new();
    for line in text.lines() {
        let mut words = line.split(' ');
        match words.next() {
            Some("node") => nodes.push(identifier(words.next().expect("an identifier"))),
            Some("link") => {
                let (from, to, cost) = (number(words.next()), number(words.next()), number(words.next()));
                let way = identifier(words.next().expect("an identifier"));
                let via = *numbers.entry(way).or_insert_with(|| {
                    ways.push(way);
                    ways.len() as u32 - 1
                });
                links.push(Link { from, to, via, cost });
            }
            _ => {}
        }
    }
    Table { nodes, ways, links }
}

/// A stable sort by the start, in two passes.
fn rows(table: &Table) -> Rows {
    let mut starts = vec![0u32; table.nodes.len() + 1];
    for link in &table.links {
        starts[link.from as usize + 1] += 1;
    }
    for n in 0..table.nodes.len() {
        starts[n + 1] += starts[n];
    }
    let mut next = starts.clone();
    let mut out = vec![Out { to: 0, via: 0, cost: 0 }; table.links.len()];
    for link in &table.links {
        let place = &mut next[link.from as usize];
        out[*place as usize] = Out { to: link.to, via: link.via, cost: link.cost };
        *place += 1;
    }
    Rows { starts, out }
}

fn sum(rows: &Rows) -> u64 {
    let mut sum = rows.starts.len() as u64;
    for out in &rows.out {
        sum = sum.wrapping_mul(31).wrapping_add(u64::from(out.to ^ out.cost ^ out.via));
    }
    sum
}

fn mark() {
    let block = vec![1u8; std::hint::black_box(MARK)];
    std::hint::black_box(&block);
}

fn main() {
    let words: Vec<String> = std::env::args().collect();
    let text = std::fs::read_to_string(&words[1]).expect("the table");
    let rounds: u32 = words[2].parse().expect("a number");
    if rounds == 0 {
        mark();
        let table = read(&text);
        mark();
        let kept = rows(&table);
        mark();
        println!("{} {} {}", table.links.len(), table.ways.len(), sum(&kept));
        return;
    }
    let (mut both, mut alone) = (f64::MAX, f64::MAX);
    let mut seen = 0;
    for _ in 0..rounds {
        let start = Instant::now();
        let table = read(&text);
        let between = Instant::now();
        let kept = rows(&table);
        both = both.min(start.elapsed().as_secs_f64());
        alone = alone.min(between.elapsed().as_secs_f64());
        seen = kept.out.len();
    }
    println!("{:.3} {:.3} {seen}", both * 1000.0, alone * 1000.0);
}
