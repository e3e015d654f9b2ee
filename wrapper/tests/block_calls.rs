//! The crate's calls on single source blocks, over the proved codec.

use raptorq::{
    Decoder, Encoder, EncoderBuilder, EncodingPacket, ObjectTransmissionInformation, PayloadId,
    SourceBlockDecoder, SourceBlockEncoder, SourceBlockEncodingPlan, calculate_block_offsets,
    extended_source_block_symbols, partition,
};
use std::panic::{RefUnwindSafe, UnwindSafe};

// T = 4 in two sub-blocks. Neither a length nor a number of blocks is said.
fn config() -> ObjectTransmissionInformation {
    ObjectTransmissionInformation::new(0, 4, 0, 2, 1)
}

fn bytes(count: usize) -> Vec<u8> {
    (0..count).map(|place| ((place * 73) >> 3) as u8).collect()
}

fn packet(block: u8, id: u32, data: &[u8]) -> EncodingPacket {
    EncodingPacket::new(PayloadId::new(block, id), data.to_vec())
}

#[test]
fn a_block_there_and_back() {
    let data = bytes(40);
    let plan = SourceBlockEncodingPlan::generate(10);
    let encoder = SourceBlockEncoder::with_encoding_plan(3, &config(), &data, &plan);
    assert_eq!(encoder, SourceBlockEncoder::new(3, &config(), &data));
    assert_ne!(encoder, SourceBlockEncoder::new(2, &config(), &data));
    assert_eq!(
        encoder.source_packets()[1],
        packet(3, 1, &[data[2], data[3], data[22], data[23]])
    );

    let mut decoder = SourceBlockDecoder::new(3, &config(), 40);
    let repair = encoder.repair_packets(5, 14);
    assert_eq!(repair[0].payload_id(), &PayloadId::new(3, 15));
    assert_eq!(decoder.decode(repair[..9].to_vec()), None);
    assert_eq!(decoder.missing_packets(), Some(1));
    assert_eq!(decoder.decode(repair[9..].to_vec()), Some(data.clone()));
    assert_eq!(decoder.decode([]), Some(data));
}

#[test]
fn a_block_without_symbols() {
    let encoder = SourceBlockEncoder::new(0, &config(), &[]);
    assert_eq!(encoder.source_packets(), []);
    assert_eq!(encoder.repair_packets(7, 1), [packet(0, 7, &[0; 4])]);
    assert_eq!(
        SourceBlockDecoder::new(0, &config(), 0).decode([]),
        Some(vec![])
    );
}

#[test]
fn an_encoder_has_those_of_its_blocks() {
    let data = bytes(90);
    let config = ObjectTransmissionInformation::new(90, 4, 3, 1, 1);
    let encoder = Encoder::new(&data, config);
    let offsets = calculate_block_offsets(&data, &config);
    assert_eq!(offsets, [(0, 32), (32, 64), (64, 92)]);
    let blocks = encoder.get_block_encoders();
    assert_eq!(
        blocks[1],
        SourceBlockEncoder::new(1, &config, &data[32..64])
    );
    let mut packets = Vec::new();
    for block in blocks {
        packets.extend(block.source_packets());
        packets.extend(block.repair_packets(0, 2));
    }
    assert_eq!(packets, encoder.get_encoded_packets(2));
    assert_eq!(encoder, encoder.clone());
    assert_ne!(encoder, Encoder::new(&bytes(91)[1..], config));
}

// Ten bytes in three parts: one of four, two of three.
#[test]
fn parts() {
    assert_eq!(partition(10u32, 3u8), (4, 3, 1, 2));
    assert_eq!(partition(9u16, 3u32), (3, 3, 0, 3));
}

#[test]
fn extended_sizes() {
    for (symbols, extended) in [
        (0, 10),
        (10, 10),
        (11, 12),
        (497, 497),
        (498, 511),
        (1000, 1002),
        (10121, 10241),
        (55844, 56403),
        (56403, 56403),
    ] {
        assert_eq!(extended_source_block_symbols(symbols), extended);
    }
}

// At both ends of rows of the table, and of the table itself.
#[test]
fn blocks_at_the_ends_of_rows() {
    let config = ObjectTransmissionInformation::new(0, 1, 0, 1, 1);
    for symbols in [1, 10, 11, 497, 498, 511, 512, 56403] {
        let data = bytes(symbols as usize);
        let encoder = SourceBlockEncoder::new(0, &config, &data);
        let mut decoder = SourceBlockDecoder::new(0, &config, data.len() as u64);
        let came = encoder.repair_packets(7, symbols + 5);
        assert_eq!(decoder.decode(came), Some(data), "{symbols}");
    }
}

// Source symbols of this block are its bytes.
#[test]
fn decoders_are_equal_by_what_they_lack_and_have() {
    let new = || Decoder::new(ObjectTransmissionInformation::new(12, 1, 1, 1, 1));
    let with = |ids: std::ops::Range<u32>, byte| {
        let mut decoder = new();
        ids.for_each(|id| decoder.add_new_packet(packet(0, id, &[byte])));
        decoder
    };
    assert_eq!(with(3..5, 0), with(3..5, 0));
    assert_ne!(with(3..5, 0), with(3..4, 0));
    assert_eq!(with(0..12, 7), with(0..12, 7));
    assert_ne!(with(0..12, 7), with(0..12, 8));
    let other = ObjectTransmissionInformation::new(12, 2, 1, 1, 1);
    assert_ne!(new(), Decoder::new(other));
}

// The packet before the refused one counts, and those behind it don't.
#[test]
fn packets_up_to_a_refused_one() {
    let mut decoder = SourceBlockDecoder::new(0, &config(), 40);
    let came = [
        packet(0, 1, &[0; 4]),
        packet(0, 2, &[0; 9]),
        packet(0, 3, &[0; 4]),
    ];
    let decode = std::panic::AssertUnwindSafe(|| decoder.decode(came));
    assert!(std::panic::catch_unwind(decode).is_err());
    assert_eq!(decoder.missing_packets(), Some(9));
}

#[test]
fn coders_cross_threads_and_panics() {
    fn crosses<T: Send + Sync + Unpin + UnwindSafe + RefUnwindSafe>() {}
    crosses::<Encoder>();
    crosses::<EncoderBuilder>();
    crosses::<SourceBlockEncoder>();
    crosses::<SourceBlockEncodingPlan>();
    crosses::<Decoder>();
    crosses::<SourceBlockDecoder>();
}

#[test]
#[should_panic(expected = "PlanMismatch")]
fn a_plan_of_another_number() {
    let plan = SourceBlockEncodingPlan::generate(11);
    let _ = SourceBlockEncoder::with_encoding_plan(0, &config(), &bytes(40), &plan);
}

#[test]
#[should_panic(expected = "BlockOverTable")]
fn a_plan_of_more_symbols_than_a_block_has() {
    let _ = SourceBlockEncodingPlan::generate(56404);
}

#[test]
#[should_panic(expected = "BlockOverTable")]
fn more_symbols_than_a_block_has() {
    let _ = SourceBlockEncoder::new(0, &config(), &bytes(70_000 * 4));
}

#[test]
#[should_panic(expected = "SymbolSizeZero")]
fn symbols_of_no_bytes() {
    let config = ObjectTransmissionInformation::new(0, 0, 0, 1, 1);
    let _ = SourceBlockEncoder::new(0, &config, &bytes(40));
}

#[test]
#[should_panic(expected = "WrongDataLength")]
fn a_symbol_that_is_not_whole() {
    let _ = SourceBlockEncoder::new(0, &config(), &bytes(41));
}

#[test]
#[should_panic(expected = "EsiTooLarge")]
fn an_id_of_more_than_24_bits() {
    let _ = SourceBlockEncoder::new(0, &config(), &bytes(40)).repair_packets((1 << 24) - 11, 2);
}

#[test]
#[should_panic(expected = "UnknownBlock")]
fn a_packet_of_another_block() {
    let _ = SourceBlockDecoder::new(0, &config(), 40).decode([packet(1, 0, &[0; 4])]);
}

#[test]
#[should_panic(expected = "SourceBlocksZero")]
fn offsets_of_no_blocks() {
    let _ = calculate_block_offsets(&[], &config());
}
