//! Reads a printed table of links, makes stored rows of it, and times a search with the heap of the standard library so many times, with
//! the potentials or the reached nodes gathered: `time_search TABLE FROM TO ROUNDS`. Prints the least milliseconds, the cost, and how many
//! potentials or reached nodes there are.
use std::cmp::Reverse;
use std::collections::BinaryHeap;
use std::time::Instant;

mod stored_rows;

use stored_rows::{labels_of, number, read, walk_to, Rows};

/// The cost and the potentials below it, or the nodes that are reached; and the walk back.
fn search(rows: &Rows, from: u32, to: u32) -> (u64, usize, usize) {
    let nodes = rows.starts.len() - 1;
    let mut labels = labels_of(nodes);
    let mut heap = BinaryHeap::new();
    labels[from as usize].cost = 0;
    heap.push(Reverse((0u64, from)));
    while let Some(Reverse((cost, n))) = heap.pop() {
        if labels[n as usize].settled {
            continue;
        }
        labels[n as usize].settled = true;
        if n == to {
            break;
        }
        for place in rows.starts[n as usize]..rows.starts[n as usize + 1] {
            let out = rows.out[place as usize];
            let sum = cost + u64::from(out.cost);
            let label = &mut labels[out.to as usize];
            if sum < label.cost {
                label.cost = sum;
                label.last = place;
                label.from = n;
                heap.push(Reverse((sum, out.to)));
            }
        }
    }
    let end = labels[to as usize].cost;
    if end == u64::MAX {
        let reached: Vec<u32> = (0..nodes as u32).filter(|n| labels[*n as usize].cost < u64::MAX).collect();
        return (0, reached.len(), 0);
    }
    let potentials: Vec<(u32, u64)> =
        labels.iter().enumerate().filter(|(_, l)| l.cost < end).map(|(n, l)| (n as u32, l.cost)).collect();
    let walk = walk_to(&labels, from, to);
    (end, potentials.len(), walk.len())
}

fn main() {
    let words: Vec<String> = std::env::args().collect();
    let rows = read(&std::fs::read_to_string(&words[1]).expect("the table"));
    let (from, to) = (number(Some(&words[2])), number(Some(&words[3])));
    let mut least = f64::MAX;
    let mut last = (0, 0, 0);
    for _ in 0..number(Some(&words[4])) {
        let start = Instant::now();
        last = std::hint::black_box(search(&rows, from, to));
        least = least.min(start.elapsed().as_secs_f64());
    }
    println!("{:.3} {} {}", least * 1000.0, last.0, last.1);
}
