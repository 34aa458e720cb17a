//! The program of `load K` with the standard library's bounded channel: K producers put 1 to 100 each into a buffer of two places, K consumers get 100 each
//! and add what they got, and the sum is printed.

use std::env;
use std::sync::mpsc::{channel, sync_channel};
use std::sync::{Arc, Mutex};
use std::thread;

const ITEMS: u64 = 100;
const PLACES: usize = 2;

fn main() {
    let pairs: u64 = env::args().nth(1).and_then(|word| word.parse().ok()).expect("the number of producers");
    let (put, got) = sync_channel::<u64>(PLACES);
    let got = Arc::new(Mutex::new(got));
    let (add, sums) = channel::<u64>();
    for _ in 0..pairs {
        let put = put.clone();
        thread::spawn(move || (1..=ITEMS).for_each(|item| put.send(item).expect("a consumer is left")));
        let (got, add) = (got.clone(), add.clone());
        thread::spawn(move || {
            let sum = (0..ITEMS).map(|_| got.lock().expect("no consumer failed").recv().expect("a producer is left")).sum();
            add.send(sum).expect("the program waits for it");
        });
    }
    println!("{}", sums.iter().take(pairs as usize).sum::<u64>());
}
