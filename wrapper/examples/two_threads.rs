//! Repair packets of the 64 source blocks of an object, by two threads over one `Encoder`, and by two threads that have an
//! `Encoder` each, in turns. Prints the medians of both times and of their ratio, which is 1 where threads that share an
//! encoder don't hinder each other.
//!
//!     cargo run --release --example two_threads [SIZE]
//!
//! SIZE: how many bytes a symbol has, a multiple of 8, and 1280 where there is none.

use raptorq::{Encoder, ObjectTransmissionInformation, SourceBlockEncoder};
use std::env;
use std::hint::black_box;
use std::process::exit;
use std::thread;
use std::time::Instant;

const USAGE: &str = "\
Repair packets by two threads over one encoder, and by two that have one each.

    two_threads [SIZE]      SIZE: how many bytes a symbol has, a multiple of 8, and 1280 where there is none
";
const SYMBOLS: usize = 101;
const BLOCKS: usize = 64;
// How many packets a call asks for, and how often.
const PACKETS: u32 = 50;
const CALLS: u32 = 10;
const ROUNDS: usize = 41;

fn encoder(size: u16) -> Encoder {
    let length = BLOCKS * SYMBOLS * usize::from(size);
    let object: Vec<u8> = (0..length)
        .map(|place| ((place * 2654435761) >> 24) as u8)
        .collect();
    let config = ObjectTransmissionInformation::new(length as u64, size, BLOCKS as u8, 1, 8);
    Encoder::new(&object, config)
}

fn ask(blocks: &[SourceBlockEncoder]) {
    for block in blocks {
        for call in 0..CALLS {
            black_box(block.repair_packets(call * PACKETS, PACKETS));
        }
    }
}

// How long two threads take, one for the first half of the blocks and one for the second, in milliseconds.
fn time(first: &Encoder, second: &Encoder) -> f64 {
    let start = Instant::now();
    thread::scope(|scope| {
        scope.spawn(|| ask(&first.get_block_encoders()[..BLOCKS / 2]));
        scope.spawn(|| ask(&second.get_block_encoders()[BLOCKS / 2..]));
    });
    start.elapsed().as_secs_f64() * 1e3
}

fn median(mut numbers: Vec<f64>) -> f64 {
    numbers.sort_by(f64::total_cmp);
    numbers[numbers.len() / 2]
}

fn measure(size: u16) {
    let (one, other) = (encoder(size), encoder(size));
    let round = |_| (time(&one, &one), time(&one, &other));
    // Memory is taken before it counts.
    round(0);
    let (shared, apart): (Vec<f64>, Vec<f64>) = (0..ROUNDS).map(round).unzip();
    let ratios = shared
        .iter()
        .zip(&apart)
        .map(|(shared, apart)| shared / apart);
    let ratio = median(ratios.collect());
    println!(
        "one encoder {:.1} ms, an encoder each {:.1} ms, ratio {ratio:.2}",
        median(shared),
        median(apart)
    );
}

fn main() {
    let words: Vec<String> = env::args().skip(1).collect();
    let words: Vec<&str> = words.iter().map(String::as_str).collect();
    let size = match words[..] {
        ["-h" | "--help"] => return print!("{USAGE}"),
        [] => Some(1280),
        [size] => size.parse().ok().filter(|size| size % 8 == 0 && *size > 0),
        _ => None,
    };
    match size {
        Some(size) => measure(size),
        None => {
            eprint!("{USAGE}");
            exit(2);
        }
    }
}
