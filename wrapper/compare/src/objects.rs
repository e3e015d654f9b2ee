//! Objects by both codecs, in turn: the medians of the ratios of their times, above 1 where the proved one is faster.

use crate::Numbers;
use std::hint::black_box;
use std::time::Instant;

fn nanoseconds(work: impl FnOnce()) -> f64 {
    let start = Instant::now();
    work();
    start.elapsed().as_nanos() as f64
}

/// The median of the crate's time by the proved codec's, the two taking turns.
fn ratio(mut ours: impl FnMut(), mut theirs: impl FnMut()) -> f64 {
    let mut ratios: Vec<f64> = (0..41)
        .map(|_| {
            let here = nanoseconds(&mut ours);
            nanoseconds(&mut theirs) / here
        })
        .collect();
    ratios.sort_by(f64::total_cmp);
    ratios[20]
}

/// Two decoders that are given the same packets, until they answer the object.
fn decode_ratio(
    ours: proved::ObjectTransmissionInformation,
    theirs: raptorq::ObjectTransmissionInformation,
    packets: &[Vec<u8>],
) -> f64 {
    ratio(
        || {
            let mut decoder = proved::Decoder::new(ours);
            let mut came = packets.iter().map(|packet| proved::EncodingPacket::deserialize(packet));
            black_box(came.find_map(|packet| decoder.decode(packet)));
        },
        || {
            let mut decoder = raptorq::Decoder::new(theirs);
            let mut came = packets.iter().map(|packet| raptorq::EncodingPacket::deserialize(packet));
            black_box(came.find_map(|packet| decoder.decode(packet)));
        },
    )
}

/// Blocks of so many symbols, each tenth of which is lost.
fn measure(blocks: u8, symbols: usize, size: u16) {
    let data = Numbers(7).bytes(usize::from(blocks) * symbols * usize::from(size));
    let length = data.len() as u64;
    let repair = (symbols / 10) as u32;
    let ours = proved::ObjectTransmissionInformation::new(length, size, blocks, 1, 8);
    let theirs = raptorq::ObjectTransmissionInformation::new(length, size, blocks, 1, 8);
    let encode = ratio(
        || {
            black_box(proved::Encoder::new(&data, ours).get_encoded_packets(repair));
        },
        || {
            black_box(raptorq::Encoder::new(&data, theirs).get_encoded_packets(repair));
        },
    );
    let packets = proved::Encoder::new(&data, ours).get_encoded_packets(repair + 1);
    let lost = |id: u32| id % 10 == 3 && (id as usize) < symbols;
    let kept = packets.iter().filter(|packet| !lost(packet.payload_id().encoding_symbol_id()));
    let came: Vec<Vec<u8>> = kept.map(|packet| packet.serialize()).collect();
    let decode = decode_ratio(ours, theirs, &came);
    println!("Z = {blocks}, K = {symbols}, T = {size}: encode {encode:.2}, decode {decode:.2}");
}

/// 400 packets of a block of one symbol whose equations say nothing of it.
fn measure_idle() {
    let ours = proved::ObjectTransmissionInformation::new(1, 1, 1, 1, 1);
    let theirs = raptorq::ObjectTransmissionInformation::new(1, 1, 1, 1, 1);
    let packets = proved::Encoder::new(&[7], ours).get_encoded_packets(150_000);
    let idle: Vec<Vec<u8>> = packets
        .iter()
        .map(|packet| packet.serialize())
        .filter(|packet| {
            let mut alone = proved::Decoder::new(ours);
            alone.decode(proved::EncodingPacket::deserialize(packet)).is_none()
        })
        .take(400)
        .collect();
    let taken = decode_ratio(ours, theirs, &idle);
    println!("{} packets that decide nothing: {taken:.2}", idle.len());
}

/// Measures 400 packets that decide nothing, and objects of one block and of 64.
pub fn print() {
    measure_idle();
    for size in [1280, 64] {
        for symbols in [10, 101, 248, 497, 1002, 10120] {
            measure(1, symbols, size);
        }
        measure(64, 10, size);
    }
}
