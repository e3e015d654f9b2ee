//! Encoders and plans that threads share, and what goes on when another one ends.

use raptorq::{
    Encoder, EncodingPacket, ObjectTransmissionInformation, PayloadId, SourceBlockDecoder,
    SourceBlockEncoder, SourceBlockEncodingPlan,
};
use std::thread;

const SYMBOL_SIZE: u16 = 16;
const THREADS: usize = 4;

// Blocks by themselves: of this configuration the size of symbols is read, and how they are cut.
fn config() -> ObjectTransmissionInformation {
    ObjectTransmissionInformation::new(0, SYMBOL_SIZE, 0, 1, 8)
}

// The bytes of a block of so many symbols. Blocks of other numbers have others.
fn block(symbols: usize, number: usize) -> Vec<u8> {
    let places = 0..symbols * usize::from(SYMBOL_SIZE);
    places
        .map(|place| (((place + number) * 2654435761) >> 16) as u8)
        .collect()
}

fn all_packets(encoder: &SourceBlockEncoder) -> Vec<EncodingPacket> {
    let mut packets = encoder.source_packets();
    packets.extend(encoder.repair_packets(0, 20));
    packets
}

// What each of some threads answers, all at a time.
fn in_threads<T: Send>(work: impl Fn(usize) -> T + Sync) -> Vec<T> {
    thread::scope(|scope| {
        let work = &work;
        let threads = (0..THREADS).map(|thread| scope.spawn(move || work(thread)));
        let threads: Vec<_> = threads.collect();
        let joined = threads.into_iter().map(|thread| thread.join());
        joined.map(|answer| answer.expect("an answer")).collect()
    })
}

#[test]
fn block_encoders_of_one_object() {
    let data = block(600, 1);
    let config = ObjectTransmissionInformation::new(data.len() as u64, SYMBOL_SIZE, 60, 1, 8);
    let encoder = Encoder::new(&data, config);
    let expected = encoder.get_encoded_packets(20);
    let share = |thread: usize| -> Vec<EncodingPacket> {
        let blocks = encoder.get_block_encoders().chunks(60 / THREADS);
        let mine = blocks.skip(thread).take(1).flatten();
        mine.flat_map(all_packets).collect()
    };
    assert_eq!(in_threads(share).concat(), expected);
}

#[test]
fn one_block_encoder() {
    let data = block(50, 2);
    let encoder = SourceBlockEncoder::new(3, &config(), &data);
    let expected: Vec<_> = (0..200).map(|id| encoder.repair_packets(id, 1)).collect();
    let expected = expected.concat();
    let same = |_| (0..50).all(|_| encoder.repair_packets(0, 200) == expected);
    assert_eq!(in_threads(same), [true; THREADS]);
}

// 10,000 blocks of up to 20 symbols.
#[test]
fn plans_of_all_threads() {
    let plans: Vec<_> = (0..=20).map(SourceBlockEncodingPlan::generate).collect();
    let there_and_back = |thread: usize| {
        (0..10_000 / THREADS).all(|round| {
            let symbols = 1 + round % 20;
            let data = block(symbols, 3 * round + thread);
            let plan = &plans[symbols];
            let encoder = SourceBlockEncoder::with_encoding_plan(7, &config(), &data, plan);
            let mut decoder = SourceBlockDecoder::new(7, &config(), data.len() as u64);
            let came = encoder.repair_packets(round as u32, symbols as u32 + 5);
            decoder.decode(came) == Some(data)
        })
    };
    assert_eq!(in_threads(there_and_back), [true; THREADS]);
}

// Of 70 numbers of symbols, more than are kept, by each thread from another one on.
#[test]
fn plans_that_are_kept() {
    let packets = |symbols: usize| {
        let data = block(symbols, symbols);
        all_packets(&SourceBlockEncoder::new(0, &config(), &data))
    };
    let by_plan = |symbols: usize| {
        let plan = SourceBlockEncodingPlan::generate(symbols as u16);
        let data = block(symbols, symbols);
        let encoder = SourceBlockEncoder::with_encoding_plan(0, &config(), &data, &plan);
        all_packets(&encoder)
    };
    let expected: Vec<_> = (0..70).map(by_plan).collect();
    let same = |thread: usize| {
        let mut sizes = (0..210).map(|round| (round + 20 * thread) % 70);
        sizes.all(|symbols| packets(symbols) == expected[symbols])
    };
    assert_eq!(in_threads(same), [true; THREADS]);
}

#[test]
fn what_goes_on_when_another_ends() {
    let plan = SourceBlockEncodingPlan::generate(10);
    let (further_plan, data) = (plan.clone(), block(10, 4));
    let encoder = SourceBlockEncoder::with_encoding_plan(0, &config(), &data, &plan);
    drop(plan);
    let expected = all_packets(&encoder);
    let clone = encoder.clone();
    drop(encoder);
    assert_eq!(all_packets(&clone), expected);
    let again = SourceBlockEncoder::with_encoding_plan(0, &config(), &data, &further_plan);
    assert_eq!(clone, again);

    let config = ObjectTransmissionInformation::new(data.len() as u64, SYMBOL_SIZE, 2, 1, 8);
    let object = Encoder::new(&data, config);
    let second = object.get_block_encoders()[1].clone();
    let expected = all_packets(&object.get_block_encoders()[1]);
    drop(object);
    assert_eq!(all_packets(&second), expected);
    drop(second);
}

// A thread that ends by a refusal leaves encoder and plan to the others.
#[test]
fn a_refusal_in_another_thread() {
    let plan = SourceBlockEncodingPlan::generate(10);
    let data = block(10, 5);
    let encoder = SourceBlockEncoder::with_encoding_plan(0, &config(), &data, &plan);
    let refused = in_threads(|_| {
        let too_many = || encoder.repair_packets(1 << 24, 1);
        let another = || SourceBlockEncoder::with_encoding_plan(0, &config(), &data[16..], &plan);
        std::panic::catch_unwind(too_many).is_err() && std::panic::catch_unwind(another).is_err()
    });
    assert_eq!(refused, [true; THREADS]);
    let again = SourceBlockEncoder::with_encoding_plan(0, &config(), &data, &plan);
    assert_eq!(all_packets(&again), all_packets(&encoder));
}

// More packets than the library is asked for at a time.
#[test]
fn a_long_run_of_packets() {
    let config = ObjectTransmissionInformation::new(0, 1, 0, 1, 1);
    let encoder = SourceBlockEncoder::new(9, &config, &[7; 10]);
    let packets = encoder.repair_packets(5, 20_000);
    let ids = packets.iter().map(|packet| packet.payload_id().clone());
    assert!(ids.eq((15..20_015).map(|id| PayloadId::new(9, id))));
    let alone = |id| encoder.repair_packets(id, 1).remove(0);
    let mut numbered = packets.iter().zip(5..);
    assert!(numbered.all(|(packet, id)| *packet == alone(id)));
}
