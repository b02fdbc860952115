//! The loop of `bench_claims disjoint` and `shared` over the standard library's `Mutex<Vec<bool>>`: one flag a block.

use std::env;
use std::process::exit;
use std::sync::Mutex;
use std::thread;
use std::time::Instant;

const SPAN: usize = 64;
const ROUNDS: usize = 2_000_000;

fn claim_once(table: &Mutex<Vec<bool>>, block: usize) -> bool {
    {
        let mut held = table.lock().unwrap();
        if held[block] {
            return false;
        }
        held[block] = true;
    }
    table.lock().unwrap()[block] = false;
    true
}

fn claim_often(table: &Mutex<Vec<bool>>, base: usize, start: usize) -> u64 {
    (0..ROUNDS).filter(|i| claim_once(table, base + (start + i * 7) % SPAN)).count() as u64
}

fn main() {
    let words: Vec<String> = env::args().skip(1).collect();
    let (Some(mode), Some(Ok(threads))) = (words.first(), words.get(1).map(|word| word.parse::<usize>())) else {
        println!("usage: mutex disjoint or shared, threads from 1 to 4");
        exit(2);
    };
    let table = Mutex::new(vec![false; 4 * SPAN]);
    let begun = Instant::now();
    let had: u64 = thread::scope(|scope| {
        let started: Vec<_> = (0..threads)
            .map(|place| {
                let base = if mode == "shared" { 0 } else { place * SPAN };
                let table = &table;
                scope.spawn(move || claim_often(table, base, place * 16))
            })
            .collect();
        started.into_iter().map(|thread| thread.join().unwrap()).sum()
    });
    let micros = begun.elapsed().as_micros();
    println!("claims {} had {had} micros {micros}", threads * ROUNDS);
}
