//! A large object by several threads: cut into parts of one block each, which share nothing, encoded,
//! and decoded without each tenth packet.
//!
//!     cargo run --release --example side_by_side BYTES THREADS

use raptorq::{Decoder, Encoder, ObjectTransmissionInformation};
use std::env;
use std::process::exit;
use std::thread;
use std::time::Instant;

const USAGE: &str = "\
A large object by several threads: cut into parts, sent, and received without each tenth packet.

    side_by_side BYTES THREADS
";
const SYMBOL_SIZE: u16 = 1280;
const SYMBOLS: usize = 1000;

// Sends a part and receives it again.
fn there_and_back(part: &[u8]) -> bool {
    let config = ObjectTransmissionInformation::new(part.len() as u64, SYMBOL_SIZE, 1, 1, 8);
    let packets = Encoder::new(part, config).get_encoded_packets(SYMBOLS as u32 / 8);
    let mut decoder = Decoder::new(config);
    let kept = packets
        .into_iter()
        .enumerate()
        .filter(|(place, _)| place % 10 != 3);
    let mut answers = kept.filter_map(|(_, packet)| decoder.decode(packet));
    answers.next().is_some_and(|object| object == part)
}

fn measure(bytes: usize, threads: usize) {
    let object: Vec<u8> = (0..bytes)
        .map(|place| ((place * 2654435761) >> 24) as u8)
        .collect();
    let parts: Vec<&[u8]> = object.chunks(SYMBOLS * usize::from(SYMBOL_SIZE)).collect();
    let start = Instant::now();
    let equal = thread::scope(|scope| {
        let shares = parts.chunks(parts.len().div_ceil(threads));
        let work =
            shares.map(|share| scope.spawn(move || share.iter().all(|part| there_and_back(part))));
        let work: Vec<_> = work.collect();
        work.into_iter().all(|work| work.join().unwrap())
    });
    let seconds = start.elapsed().as_secs_f64();
    println!(
        "{} parts by {threads} threads in {seconds:.2} s, equal: {equal}",
        parts.len()
    );
}

fn main() {
    let words: Vec<String> = env::args().skip(1).collect();
    let words: Vec<&str> = words.iter().map(String::as_str).collect();
    let numbers = match words[..] {
        ["-h" | "--help"] => return print!("{USAGE}"),
        [bytes, threads] => (bytes.parse().unwrap_or(0), threads.parse().unwrap_or(0)),
        _ => (0, 0),
    };
    match numbers {
        (1.., 1..) => measure(numbers.0, numbers.1),
        _ => {
            eprint!("{USAGE}");
            exit(2);
        }
    }
}
