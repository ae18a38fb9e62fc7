//! Reads a printed table of links, makes stored rows of it, and times the question for the nearest of several nodes with the heap of the
//! standard library so many times: `time_nearest TABLE FROM COUNT ROUNDS`. The first COUNT nodes are restrooms, and no way leads to the one
//! behind them. Prints a line each for one restroom, ten, and the node that can't be reached: the least milliseconds, how many rows there are,
//! the sum of their costs, how many potentials there are, and how many nodes are reached where there are fewer rows than were asked for.
use std::cmp::Reverse;
use std::collections::BinaryHeap;
use std::ops::Range;
use std::time::Instant;

mod stored_rows;

use stored_rows::{labels_of, number, read, walk_to, Rows};

struct Row {
    cost: u64,
    walk: Vec<u32>,
}

struct Near {
    rows: Vec<Row>,
    potentials: Vec<(u32, u64)>,
    reached: Option<Vec<u32>>,
}

/// The nearest of the targets, up to the limit, the potentials below the last cost, and what is reached where there are fewer. It ends where so
/// many targets are settled and what comes next costs more than the last.
fn nearest(rows: &Rows, from: u32, targets: &[u32], limit: usize) -> Near {
    let nodes = rows.starts.len() - 1;
    let mut is_target = vec![false; nodes];
    for target in targets {
        is_target[*target as usize] = true;
    }
    let mut labels = labels_of(nodes);
    let mut heap = BinaryHeap::new();
    let (mut left, mut last) = (limit, 0);
    labels[from as usize].cost = 0;
    heap.push(Reverse((0u64, from)));
    while let Some(Reverse((cost, n))) = heap.pop() {
        if labels[n as usize].settled {
            continue;
        }
        if left == 0 && cost > last {
            break;
        }
        labels[n as usize].settled = true;
        if is_target[n as usize] {
            left = left.saturating_sub(1);
            last = cost;
        }
        for place in rows.starts[n as usize]..rows.starts[n as usize + 1] {
            let out = rows.out[place as usize];
            let sum = cost + u64::from(out.cost);
            let label = &mut labels[out.to as usize];
            if sum < label.cost {
                label.cost = sum;
                label.last = place;
                label.from = n;
                heap.push(Reverse((sum, out.to)));
            }
        }
    }
    let mut found: Vec<(u64, u32)> =
        targets.iter().filter(|target| labels[**target as usize].settled).map(|target| (labels[*target as usize].cost, *target)).collect();
    found.sort_unstable();
    found.truncate(limit);
    let end = found.last().map_or(0, |(cost, _)| *cost);
    let found: Vec<Row> = found.into_iter().map(|(cost, target)| Row { cost, walk: walk_to(&labels, from, target) }).collect();
    let potentials = labels.iter().enumerate().filter(|(_, label)| label.cost < end).map(|(n, label)| (n as u32, label.cost)).collect();
    let reached = (found.len() < limit).then(|| (0..nodes as u32).filter(|n| labels[*n as usize].settled).collect());
    Near { rows: found, potentials, reached }
}

fn time(name: &str, rows: &Rows, from: u32, targets: Range<u32>, limit: usize, rounds: u32) {
    let targets: Vec<u32> = targets.collect();
    let mut least = f64::MAX;
    let mut told = String::new();
    for _ in 0..rounds {
        let start = Instant::now();
        let near = std::hint::black_box(nearest(rows, from, &targets, limit));
        least = least.min(start.elapsed().as_secs_f64());
        let cost: u64 = near.rows.iter().map(|row| row.cost).sum();
        std::hint::black_box(near.rows.iter().map(|row| row.walk.len()).sum::<usize>());
        told = format!("{} {cost} {} {}", near.rows.len(), near.potentials.len(), near.reached.map_or(0, |reached| reached.len()));
    }
    println!("{name} {:.4} {told}", least * 1000.0);
}

fn main() {
    let words: Vec<String> = std::env::args().collect();
    let rows = read(&std::fs::read_to_string(&words[1]).expect("the table"));
    let (from, count, rounds) = (number(Some(&words[2])), number(Some(&words[3])), number(Some(&words[4])));
    time("one", &rows, from, 0..count, 1, rounds);
    time("ten", &rows, from, 0..count, 10, rounds);
    time("none", &rows, from, count..count + 1, 1, rounds);
}
