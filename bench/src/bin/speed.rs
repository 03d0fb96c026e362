//! Nanoseconds for a scan: number and place from the second program, then these and the count from
//! the peer. Each is the least mean of three rounds over the lines of standard input.
//! `bench/speed/speed.c` does the same with the archive, and calls it in the same way.

use second::message::Edition::Current;
use second::peer;
use std::hint::black_box;
use std::io::{stdin, Read, Result};
use std::time::{Duration, Instant};

const ROUNDS: usize = 3;
const ROUND: Duration = Duration::from_millis(50);
/// Scans, at least, between two looks at the clock.
const TURN: usize = 1000;

fn both(scan: &[u8]) -> usize {
    let (number, place) = second::judge(Current, scan);
    usize::from(number) + place
}

fn peer(scan: &[u8]) -> usize {
    let verdict = peer::judge(scan);
    usize::from(verdict.number) + verdict.place + verdict.count
}

fn mean_of_round(scans: &[&[u8]], ask: fn(&[u8]) -> usize) -> f64 {
    let start = Instant::now();
    let (mut done, mut sum) = (0, 0);
    while start.elapsed() < ROUND {
        let turn = done + TURN;
        while done < turn {
            for scan in scans {
                sum = black_box(sum + ask(scan)); // so that no call is left out
            }
            done += scans.len();
        }
    }
    start.elapsed().as_nanos() as f64 / done as f64
}

fn main() -> Result<()> {
    let mut text = Vec::new();
    stdin().read_to_end(&mut text)?;
    let scans: Vec<&[u8]> =
        text.split_inclusive(|&byte| byte == b'\n').map(|line| &line[..line.len() - 1]).collect();
    second::judge(Current, b""); // the automata are built here
    for ask in [both, peer] {
        let ask = black_box(ask as fn(&[u8]) -> usize);
        let least = (0..ROUNDS).map(|_| mean_of_round(&scans, ask)).fold(f64::MAX, f64::min);
        println!("{least:.1}");
    }
    Ok(())
}
