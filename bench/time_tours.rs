//! Times plain Rust that finds the cost of the best order of eight stops over a thousand tables: `time_tours`. What is printed is the least
//! time of a table in 40 rounds, in microseconds, by the table of sums that `stop_order` fills, by one from the front that skips what has no
//! cost, and by all 40,320 orders (a round over twenty tables), each behind it the sum of the costs, of the last that over twenty.
use std::time::Instant;

const FAR: u64 = 1 << 50;

struct Costs {
    stops: u8,
    rows: [[Option<u64>; 10]; 10],
}

struct Order {
    places: [u8; 8],
    cost: u64,
}

#[derive(Clone, Copy)]
struct Choice {
    stop: usize,
    sum: u64,
}

// The sums from the end: for each set of stops and each stop outside it the least from there through the set.
fn next(legs: &[[u64; 10]; 10], sums: &[[u64; 8]; 256], set: usize, place: usize) -> Choice {
    let mut best = Choice { stop: 0, sum: u64::MAX };
    let mut left = set;
    while left != 0 {
        let stop = left.trailing_zeros() as usize;
        left &= left - 1;
        let sum = legs[place][stop + 1] + sums[set & !(1 << stop)][stop];
        if sum < best.sum {
            best = Choice { stop, sum };
        }
    }
    best
}

#[inline(never)]
fn by_table(costs: &Costs) -> Option<Order> {
    let stops = costs.stops as usize;
    let legs = costs.rows.map(|row| row.map(|cost| cost.unwrap_or(FAR)));
    let mut sums = [[0; 8]; 256];
    for stop in 0..stops {
        sums[0][stop] = legs[stop + 1][stops + 1];
    }
    for set in 1..1 << stops {
        for stop in 0..stops {
            if set >> stop & 1 == 0 {
                sums[set][stop] = next(&legs, &sums, set, stop + 1).sum;
            }
        }
    }
    let mut left = (1 << stops) - 1;
    let cost = next(&legs, &sums, left, 0).sum;
    let mut place = 0;
    let mut places = [0; 8];
    for turn in &mut places[..stops] {
        let stop = next(&legs, &sums, left, place).stop;
        *turn = stop as u8;
        left &= !(1 << stop);
        place = stop + 1;
    }
    (cost < FAR).then_some(Order { places, cost })
}

// The sums from the front: for each set of stops and each stop in it the least up to there, with marks to lead back.
#[inline(never)]
fn from_the_front(costs: &Costs) -> Option<Order> {
    let stops = costs.stops as usize;
    let mut rows = [[None; 8]; 256];
    let mut marks = [[0; 8]; 256];
    for stop in 0..stops {
        rows[1 << stop][stop] = costs.rows[0][stop + 1];
    }
    for set in 1usize..1 << stops {
        for last in (0..stops).filter(|last| set >> last & 1 == 1) {
            let Some(sum) = rows[set][last] else { continue };
            for stop in (0..stops).filter(|stop| set >> stop & 1 == 0) {
                let Some(leg) = costs.rows[last + 1][stop + 1] else { continue };
                let row: &mut Option<u64> = &mut rows[set | 1 << stop][stop];
                if row.is_none_or(|least| sum + leg < least) {
                    *row = Some(sum + leg);
                    marks[set | 1 << stop][stop] = last;
                }
            }
        }
    }
    let mut set = (1usize << stops) - 1;
    let (cost, mut last) = (0..stops).filter_map(|last| Some((rows[set][last]? + costs.rows[last + 1][stops + 1]?, last))).min()?;
    let mut places = [0; 8];
    for turn in places[..stops].iter_mut().rev() {
        *turn = last as u8;
        let before = marks[set][last];
        set &= !(1 << last);
        last = before;
    }
    Some(Order { places, cost })
}

// All orders of the stops that are left, from a place on.
fn least_of_all(costs: &Costs, place: usize, left: usize) -> Option<u64> {
    if left == 0 {
        return costs.rows[place][costs.stops as usize + 1];
    }
    (0..costs.stops as usize)
        .filter(|stop| left >> stop & 1 == 1)
        .filter_map(|stop| Some(costs.rows[place][stop + 1]? + least_of_all(costs, stop + 1, left & !(1 << stop))?))
        .min()
}

fn numbers(state: &mut u64) -> Costs {
    let mut rows = [[None; 10]; 10];
    for cost in rows.as_flattened_mut() {
        *state = state.wrapping_mul(6_364_136_223_846_793_005).wrapping_add(1_442_695_040_888_963_407);
        *cost = (*state >> 60 != 0).then_some((*state >> 33) % 100_000);
    }
    Costs { stops: 8, rows }
}

fn timed(rounds: u32, tours: &[Costs], cost_of: impl Fn(&Costs) -> Option<u64>) {
    let mut least = f64::MAX;
    let mut sum = 0u64;
    for _ in 0..rounds {
        let start = Instant::now();
        sum = tours.iter().filter_map(&cost_of).sum();
        least = least.min(start.elapsed().as_secs_f64() * 1_000_000.0 / tours.len() as f64);
    }
    println!("{least:.2} {sum}");
}

fn priced(order: Order) -> u64 {
    std::hint::black_box(order.places);
    order.cost
}

fn main() {
    let mut state = 20_261_129u64;
    let tours: Vec<_> = (0..1_000).map(|_| numbers(&mut state)).collect();
    timed(40, &tours, |costs| by_table(costs).map(priced));
    timed(40, &tours, |costs| from_the_front(costs).map(priced));
    timed(5, &tours[..20], |costs| least_of_all(costs, 0, (1 << costs.stops) - 1));
    timed(1, &tours[..20], |costs| by_table(costs).map(priced));
}
