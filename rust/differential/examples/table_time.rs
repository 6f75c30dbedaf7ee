//! The time of a Pair that reads a sound table of 512 rows and has nobody to pair it with.

use std::time::Instant;

use differential::Archive;
use model::engine::Engine;
use model::generate::drawing::{Drawing, Size};
use model::generate::random::Random;
use model::sizes::{LIST_BYTES, TABLE_BYTES};

fn main() {
    let drawing = Drawing::random(&mut Random::new(1), Size::Full);
    let (table, empty) = (drawing.table_a(), vec![0; TABLE_BYTES]);
    let mut list = vec![0; LIST_BYTES];
    let mut best = f64::MAX;
    for _ in 0..200 {
        let start = Instant::now();
        for _ in 0..100 {
            std::hint::black_box(Archive.pair(std::hint::black_box(&table), &empty, &mut list));
        }
        best = best.min(start.elapsed().as_secs_f64() / 100.0);
    }
    println!("{:.1} µs", best * 1e6);
}
