//! Blocks by both codecs, in turn: the table of `docs/PERFORMANCE.md`. A line has the median of the ratios, the crate's time
//! divided by the proved codec's, and the medians of both times.

use std::time::{Duration, Instant};

const SIZES: [u16; 2] = [1280, 64];
const COUNTS: [u16; 6] = [10, 101, 248, 497, 1002, 10120];
const ROUNDS: usize = 41;
/// How many nanoseconds a sample takes at least.
const SAMPLE: u128 = 2_000_000;

fn timed<T>(work: impl FnOnce() -> T) -> Duration {
    let start = Instant::now();
    std::hint::black_box(work());
    start.elapsed()
}

/// The works by a codec, with one repair packet for each ten source symbols. Each answers what time it took.
macro_rules! works {
    ($name:ident, $codec:ident) => {
        mod $name {
            use super::timed;
            use crate::Numbers;
            use $codec::{
                EncodingPacket, ObjectTransmissionInformation, SourceBlockDecoder,
                SourceBlockEncoder, SourceBlockEncodingPlan,
            };
            use std::time::Duration;

            pub struct Block {
                config: ObjectTransmissionInformation,
                data: Vec<u8>,
                plan: SourceBlockEncodingPlan,
                repair: u32,
                came: Vec<EncodingPacket>,
            }

            impl Block {
                /// Of its packets each tenth source packet is lost, and as many repair packets come.
                pub fn new(symbols: u16, size: u16) -> Block {
                    let repair = u32::from(symbols / 10);
                    let config = ObjectTransmissionInformation::new(0, size, 0, 1, 8);
                    let data = Numbers(7).bytes(usize::from(symbols) * usize::from(size));
                    let encoder = SourceBlockEncoder::new(0, &config, &data);
                    let mut came = encoder.source_packets();
                    let lost = |id: u32| id % 10 == 3 && id / 10 < repair;
                    came.retain(|packet| !lost(packet.payload_id().encoding_symbol_id()));
                    came.extend(encoder.repair_packets(0, repair));
                    let plan = SourceBlockEncodingPlan::generate(symbols);
                    Block { config, data, plan, repair, came }
                }

                pub fn planned(&self) -> Duration {
                    timed(|| {
                        SourceBlockEncoder::with_encoding_plan(0, &self.config, &self.data, &self.plan)
                            .repair_packets(0, self.repair)
                    })
                }

                pub fn again(&self) -> Duration {
                    timed(|| {
                        SourceBlockEncoder::new(0, &self.config, &self.data)
                            .repair_packets(0, self.repair)
                    })
                }

                pub fn decoded(&self) -> Duration {
                    let length = self.data.len() as u64;
                    let came = self.came.clone();
                    let mut answer = None;
                    let time = timed(|| {
                        answer = SourceBlockDecoder::new(0, &self.config, length).decode(came);
                    });
                    assert!(answer.as_ref() == Some(&self.data));
                    time
                }
            }
        }
    };
}

works!(here, proved);
works!(there, raptorq);

const WORKS: [&str; 3] = [
    "a block by a plan that the program holds",
    "a further block of a size, by `new`",
    "decoding from K packets, each tenth source packet lost",
];

/// A work, done so often that it can be measured.
struct Sampler<'a> {
    work: &'a dyn Fn() -> Duration,
    times: u32,
}

impl Sampler<'_> {
    fn new(work: &dyn Fn() -> Duration) -> Sampler<'_> {
        let once = (0..4).map(|_| work().as_nanos().max(1)).min();
        let times = once.map_or(1, |once| SAMPLE.div_ceil(once) as u32);
        Sampler { work, times }
    }

    /// Nanoseconds of the work.
    fn sample(&self) -> f64 {
        let spent: Duration = (0..self.times).map(|_| (self.work)()).sum();
        spent.as_nanos() as f64 / f64::from(self.times)
    }
}

fn median(numbers: impl Iterator<Item = f64>) -> f64 {
    let mut sorted: Vec<f64> = numbers.collect();
    sorted.sort_by(f64::total_cmp);
    sorted[sorted.len() / 2]
}

/// Medians of a work: of the ratios, and of the microseconds here.
struct Medians {
    ratio: f64,
    here: f64,
}

/// Lets both codecs do a work, here and there, and prints the medians.
fn measure(codecs: [&dyn Fn() -> Duration; 2]) -> Medians {
    let samplers = codecs.map(Sampler::new);
    let mut rounds = [[0.0; 2]; ROUNDS];
    for (number, round) in rounds.iter_mut().enumerate() {
        let first = number % 2;
        round[first] = samplers[first].sample();
        round[1 - first] = samplers[1 - first].sample();
    }
    let ratio = median(rounds.iter().map(|[here, there]| there / here));
    let [here, there] = [0, 1].map(|codec| median(rounds.iter().map(|round| round[codec] / 1e3)));
    println!("{ratio:.2}, here {here:.2} microseconds, the crate {there:.2}");
    Medians { ratio, here }
}

/// Measures blocks of so many symbols: the median of each work.
fn measure_blocks(symbols: u16, size: u16) -> Vec<Medians> {
    let (here, there) = (here::Block::new(symbols, size), there::Block::new(symbols, size));
    let works: [[&dyn Fn() -> Duration; 2]; WORKS.len()] = [
        [&|| here.planned(), &|| there.planned()],
        [&|| here.again(), &|| there.again()],
        [&|| here.decoded(), &|| there.decoded()],
    ];
    let named = WORKS.iter().zip(works).map(|(name, codecs)| {
        print!("{name}, K = {symbols}, T = {size}: ");
        measure(codecs)
    });
    named.collect()
}

/// A cell of the table: the ratio, and MB of the block a second here.
fn cell(medians: &Medians, symbols: u16, size: u16) -> String {
    format!("{:.2}, {:.0}", medians.ratio, f64::from(symbols) * f64::from(size) / medians.here)
}

/// Measures blocks of each size, and prints the rows of the table behind the lines.
pub fn print() {
    let columns = SIZES.map(|size| COUNTS.map(|symbols| measure_blocks(symbols, size)));
    let rows = (0..WORKS.len()).flat_map(|work| (0..SIZES.len()).map(move |size| (work, size)));
    for (work, size) in rows {
        let medians = columns[size].iter().zip(COUNTS);
        let cells: Vec<_> = medians.map(|(medians, symbols)| cell(&medians[work], symbols, SIZES[size])).collect();
        println!("| {} | {} | {} |", WORKS[work], SIZES[size], cells.join(" | "));
    }
}
