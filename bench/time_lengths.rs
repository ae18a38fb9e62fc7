//! Times a plain length in whole centimetres over a million pairs of places, by a division of 128 bits and `u64::isqrt`:
//! `time_lengths`. What is printed is the least time of a length in 40 rounds, in nanoseconds, and the sum of the lengths.
use std::time::Instant;

const SQUARE_CENTIMETRE: u128 = 4_000_000_000_000_000_000;

#[derive(Clone, Copy)]
struct Spot {
    x: i64,
    y: i64,
}

fn stretch_square(m: i64, n: i64, k: u32) -> u128 {
    let length = (n - m).unsigned_abs() * k as u64;
    length as u128 * length as u128
}

#[inline(never)]
fn length_cm(a: Spot, b: Spot, kx: u32, ky: u32) -> u32 {
    let square = stretch_square(a.x, b.x, kx) + stretch_square(a.y, b.y, ky);
    let whole = square.div_ceil(SQUARE_CENTIMETRE) as u64;
    if whole == 0 { 0 } else { (whole - 1).isqrt() as u32 + 1 }
}

fn at(place: Spot) -> Spot {
    Spot { x: place.x.clamp(-200_000_000, 200_000_000), y: place.y.clamp(-200_000_000, 200_000_000) }
}

fn sum_of(pairs: &[(Spot, Spot)]) -> u64 {
    let mut sum = 0u64;
    for (a, b) in pairs {
        sum = sum.wrapping_add(length_cm(at(*a), at(*b), 7_500_000, 11_100_000) as u64);
    }
    sum
}

fn coordinate(state: &mut u64) -> i64 {
    *state = state.wrapping_mul(6_364_136_223_846_793_005).wrapping_add(1_442_695_040_888_963_407);
    ((*state >> 33) % 4_000_000) as i64
}

fn main() {
    let mut state = 20_260_101u64;
    let mut place = || Spot { x: coordinate(&mut state), y: coordinate(&mut state) };
    let pairs: Vec<_> = (0..1_000_000).map(|_| (place(), place())).collect();
    let mut least = f64::MAX;
    let mut sum = 0;
    for _ in 0..40 {
        let start = Instant::now();
        sum = sum_of(&pairs);
        least = least.min(start.elapsed().as_secs_f64() * 1000.0);
    }
    println!("{least:.1} {sum}");
}
