//! The proved codec beside the crate `raptorq` 2.0.1, in one process.
//!
//!     compare          asks that both do the same, and measures blocks and objects
//!     compare table    measures blocks alone
//!
//! On 2,000 random configurations, losses and orders, packets are equal byte for byte and both answer at the same
//! packet. One in eight has blocks of more than 497 symbols. So are those of 2,000 blocks by themselves. On 10,000
//! lengths and packet sizes default configurations are equal. Then both take turns at blocks (`table.rs`), and at
//! objects and packets that decide nothing (`objects.rs`).

mod objects;
mod table;

const USAGE: &str = "\
The proved codec beside the crate raptorq 2.0.1.

    compare          asks that both do the same, and measures blocks and objects
    compare table    measures blocks alone
";

struct Numbers(u64);

impl Numbers {
    fn below(&mut self, bound: u64) -> u64 {
        self.0 = self.0.wrapping_mul(6364136223846793005).wrapping_add(1442695040888963407);
        (self.0 >> 32) % bound
    }

    fn bytes(&mut self, count: usize) -> Vec<u8> {
        (0..count).map(|_| self.below(256) as u8).collect()
    }

    fn shuffle<T>(&mut self, items: &mut [T]) {
        for i in (1..items.len()).rev() {
            items.swap(i, self.below(i as u64 + 1) as usize);
        }
    }
}

/// How many symbols a block has: in one configuration of eight from 498 to 56403.
fn block_symbols(numbers: &mut Numbers, number: usize) -> u64 {
    match number % 8 {
        0 => {
            let least = 498 << numbers.below(7);
            (least + numbers.below(least)).min(56403)
        }
        1 => 1 + numbers.below(497),
        _ => 1 + numbers.below(60),
    }
}

/// A configuration that both take: F, T, Z, N, Al.
fn configuration(numbers: &mut Numbers, number: usize) -> (u64, u16, u8, u16, u8) {
    let alignment = 1 + numbers.below(8);
    let units = 1 + numbers.below(8);
    let size = alignment * units;
    let sub_blocks = 1 + numbers.below(units);
    let blocks = if number % 8 == 0 { 1 } else { 1 + numbers.below(4) };
    let symbols = blocks * block_symbols(numbers, number);
    let length = symbols * size - numbers.below(size);
    (length, size as u16, blocks as u8, sub_blocks as u16, alignment as u8)
}

/// After which packet each decoder answers, and that the answer is the object.
fn compare(numbers: &mut Numbers, number: usize) {
    let (f, t, z, n, al) = configuration(numbers, number);
    let data = numbers.bytes(f as usize);
    let ours = proved::ObjectTransmissionInformation::new(f, t, z, n, al);
    let theirs = raptorq::ObjectTransmissionInformation::new(f, t, z, n, al);
    assert_eq!(ours.serialize(), theirs.serialize());
    let repair = numbers.below(20) as u32;
    let made = proved::Encoder::new(&data, ours).get_encoded_packets(repair);
    let packets: Vec<Vec<u8>> = made.iter().map(|packet| packet.serialize()).collect();
    let crates = raptorq::Encoder::new(&data, theirs).get_encoded_packets(repair);
    assert!(packets.iter().eq(&crates.iter().map(|packet| packet.serialize()).collect::<Vec<_>>()));

    let mut came: Vec<&Vec<u8>> = packets.iter().filter(|_| numbers.below(10) > 0).collect();
    numbers.shuffle(&mut came);
    let mut first = proved::Decoder::new(ours);
    let mut second = raptorq::Decoder::new(theirs);
    for packet in came {
        let here = first.decode(proved::EncodingPacket::deserialize(packet));
        let there = second.decode(raptorq::EncodingPacket::deserialize(packet));
        assert_eq!(here, there, "{f} {t} {z} {n} {al}");
        if let Some(object) = here {
            assert_eq!(object, data);
            return;
        }
    }
}

/// One block: its packets by a plan, from a repair symbol on, the answers to several packets at a time, and
/// whether decoders are equal that were given the packets in another order.
fn compare_block(numbers: &mut Numbers, number: usize) {
    let symbols = 1 + numbers.below(60) as usize;
    let (_, t, _, n, al) = configuration(numbers, number);
    let data = numbers.bytes(symbols * usize::from(t));
    let id = numbers.below(256) as u8;
    let start = numbers.below(1 << 20) as u32;
    let ours = proved::ObjectTransmissionInformation::new(0, t, 0, n, al);
    let theirs = raptorq::ObjectTransmissionInformation::new(0, t, 0, n, al);
    let plan = proved::SourceBlockEncodingPlan::generate(symbols as u16);
    let here = proved::SourceBlockEncoder::with_encoding_plan(id, &ours, &data, &plan);
    let there = raptorq::SourceBlockEncoder::new(id, &theirs, &data);
    let mut made = here.source_packets();
    made.extend(here.repair_packets(start, 40));
    let mut packets: Vec<Vec<u8>> = made.iter().map(|packet| packet.serialize()).collect();
    let mut crates = there.source_packets();
    crates.extend(there.repair_packets(start, 40));
    assert!(packets.iter().eq(&crates.iter().map(|packet| packet.serialize()).collect::<Vec<_>>()));

    numbers.shuffle(&mut packets);
    let batch = 1 + numbers.below(9) as usize;
    let length = data.len() as u64;
    let mut first = proved::SourceBlockDecoder::new(id, &ours, length);
    let mut second = raptorq::SourceBlockDecoder::new(id, &theirs, length);
    let mut again = first.clone();
    for came in packets.chunks_mut(batch) {
        let here = first.decode(came.iter().map(|packet| proved::EncodingPacket::deserialize(packet)));
        let there = second.decode(came.iter().map(|packet| raptorq::EncodingPacket::deserialize(packet)));
        assert_eq!(here, there, "{t} {n} {al}");
        numbers.shuffle(came);
        again.decode(came.iter().map(|packet| proved::EncodingPacket::deserialize(packet)));
        assert_eq!(first, again);
    }
    assert_eq!(first.decode([]), Some(data));
}

/// Lengths up to 2^29 bytes in packets of 64 bytes or more, which the crate cuts into at most 255 blocks.
fn compare_defaults(numbers: &mut Numbers) {
    let bits = 1 + numbers.below(29);
    let length = 1 + numbers.below(1 << bits);
    let size = (64 + numbers.below(8_937)) as u16;
    let ours = proved::ObjectTransmissionInformation::with_defaults(length, size);
    let theirs = raptorq::ObjectTransmissionInformation::with_defaults(length, size);
    assert_eq!(ours.serialize(), theirs.serialize(), "{length} {size}");
}

fn compare_all() {
    let mut numbers = Numbers(2026);
    for number in 0..2_000 {
        compare(&mut numbers, number);
        compare_block(&mut numbers, number);
    }
    for _ in 0..10_000 {
        compare_defaults(&mut numbers);
    }
    println!("2000 configurations: the same packets, the same answers at the same packets");
    println!("2000 blocks: the same packets by a plan, the same answers");
    println!("10000 lengths and packet sizes: the same default configurations");
}

fn main() {
    let words: Vec<String> = std::env::args().skip(1).collect();
    let words: Vec<&str> = words.iter().map(String::as_str).collect();
    match words[..] {
        [] => {
            compare_all();
            table::print();
            objects::print();
        }
        ["table"] => table::print(),
        ["-h" | "--help"] => print!("{USAGE}"),
        _ => {
            eprint!("{USAGE}");
            std::process::exit(2);
        }
    }
}
