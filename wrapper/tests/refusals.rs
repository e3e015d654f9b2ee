//! Calls that return a `Result`, as what a network brings wants them.

use raptorq::{
    Decoder, Encoder, EncoderBuilder, EncodingPacket, Error, ObjectTransmissionInformation,
    PayloadId, SourceBlockDecoder, SourceBlockEncoder, SourceBlockEncodingPlan,
};
use std::panic::{self, Location};
use std::sync::Mutex;

fn config() -> ObjectTransmissionInformation {
    ObjectTransmissionInformation::new(160, 16, 1, 1, 8)
}

// A configuration whose bytes these are, as a network may bring it.
fn forged(place: usize, byte: u8) -> ObjectTransmissionInformation {
    let mut bytes = config().serialize();
    bytes[place] = byte;
    ObjectTransmissionInformation::deserialize(&bytes)
}

#[test]
fn what_a_network_brings_is_refused() {
    let encoder = Encoder::new(&[7; 160], config());
    let mut decoder = Decoder::try_new(config()).unwrap();
    let packet = encoder.get_encoded_packets(0)[3].serialize();
    assert_eq!(decoder.add_bytes(&packet[..3]), Err(Error::PacketTooShort));
    assert_eq!(decoder.add_bytes(&[9, 0, 0, 0]), Err(Error::UnknownBlock));
    assert_eq!(
        decoder.add_bytes(&packet[..19]),
        Err(Error::WrongPayloadSize)
    );
    assert_eq!(
        EncodingPacket::try_deserialize(&packet[..3]),
        Err(Error::PacketTooShort)
    );
    assert_eq!(PayloadId::try_new(0, 1 << 24), Err(Error::EsiTooLarge));
    assert_eq!(
        Decoder::try_new(forged(8, 0)).err(),
        Some(Error::SourceBlocksZero)
    );
    assert_eq!(
        Decoder::try_new(forged(11, 0)).err(),
        Some(Error::AlignmentZero)
    );
    assert_eq!(
        Decoder::try_new(forged(11, 3)).err(),
        Some(Error::Misaligned)
    );
    assert_eq!(
        Decoder::try_new(forged(1, 9)).err(),
        Some(Error::BlockOverTable)
    );

    // What was refused left nothing.
    let answers = encoder
        .packets()
        .take(10)
        .map(|packet| decoder.try_decode(packet).unwrap());
    assert_eq!(answers.last(), Some(Some(vec![7; 160])));
}

#[test]
fn blocks_refuse_what_isnt_theirs() {
    let encoder = SourceBlockEncoder::new(3, &config(), &[7; 160]);
    let mut decoder = SourceBlockDecoder::try_new(3, &config(), 160).unwrap();
    let mut packets = encoder.source_packets();
    let last = packets.pop();
    packets.push(EncodingPacket::new(PayloadId::new(2, 9), vec![7; 16]));
    assert_eq!(decoder.try_decode(packets), Err(Error::UnknownBlock));
    let short = EncodingPacket::new(PayloadId::new(3, 9), vec![7; 15]);
    assert_eq!(decoder.try_decode([short]), Err(Error::WrongPayloadSize));
    // Those before were taken.
    assert_eq!(decoder.try_decode(last), Ok(Some(vec![7; 160])));
    let refused = SourceBlockDecoder::try_new(3, &forged(11, 3), 160).err();
    assert_eq!(refused, Some(Error::Misaligned));
}

// Of a single source symbol, repair symbol 133 is zero, whatever that is.
#[test]
fn a_contradiction_is_said() {
    let config = ObjectTransmissionInformation::new(1, 1, 1, 1, 1);
    let byte = |esi, byte| EncodingPacket::new(PayloadId::new(0, esi), vec![byte]);
    let mut decoder = Decoder::new(config);
    assert_eq!(decoder.try_decode(byte(133, 1)), Ok(None));
    assert_eq!(decoder.try_decode(byte(0, 7)), Err(Error::Contradiction));
    assert_eq!(decoder.get_result(), None);
    let mut decoder = SourceBlockDecoder::new(0, &config, 1);
    let refused = decoder.try_decode([byte(133, 1), byte(0, 7)]);
    assert_eq!(refused, Err(Error::Contradiction));
    assert_eq!(decoder.decode([]), None);
}

#[test]
fn what_is_asked_for_is_refused() {
    type Config = ObjectTransmissionInformation;
    assert_eq!(Config::try_new(10, 4, 1, 1, 3), Err(Error::Misaligned));
    assert_eq!(
        Config::try_with_defaults(0, 10),
        Err(Error::TransferLengthZero)
    );
    assert_eq!(
        Encoder::try_new(&[7; 159], config()),
        Err(Error::WrongDataLength)
    );
    assert_eq!(
        Encoder::try_with_defaults(&[], 16),
        Err(Error::TransferLengthZero)
    );
    let mut builder = EncoderBuilder::new();
    builder.set_max_packet_size(0);
    assert_eq!(builder.try_build(&[7]), Err(Error::PacketSizeZero));
    let plan = SourceBlockEncodingPlan::try_generate(9).unwrap();
    let planned = SourceBlockEncoder::try_with_encoding_plan(0, &config(), &[7; 160], &plan);
    assert_eq!(planned, Err(Error::PlanMismatch));
    assert_eq!(
        SourceBlockEncodingPlan::try_generate(56404),
        Err(Error::BlockOverTable)
    );
    let whole = SourceBlockEncoder::try_new(0, &config(), &[7; 159]);
    assert_eq!(whole, Err(Error::WrongDataLength));
}

#[test]
fn packets_are_written_where_they_are_sent_from() {
    let encoder = SourceBlockEncoder::new(0, &config(), &[7; 160]);
    let mut packets = vec![1; 60];
    encoder.write_packets(9, &mut packets).unwrap();
    let expected = [
        &encoder.source_packets()[9..],
        &encoder.repair_packets(0, 2),
    ]
    .concat();
    let bytes: Vec<u8> = expected
        .iter()
        .flat_map(EncodingPacket::serialize)
        .collect();
    assert_eq!(packets, bytes);
    assert_eq!(
        encoder.write_packets(9, &mut packets[..59]),
        Err(Error::WrongBuffer)
    );
    let behind = encoder.write_packets((1 << 24) - 2, &mut packets);
    assert_eq!(behind, Err(Error::EsiTooLarge));
    assert_eq!(packets, bytes);
}

#[test]
fn packets_of_all_blocks_come_in_turn() {
    let config = ObjectTransmissionInformation::new(120, 10, 3, 1, 2);
    let encoder = Encoder::new(&[7; 120], config);
    let mut packets = encoder.packets();
    assert_eq!(packets.len(), 3 << 24);
    let ids: Vec<(u8, u32)> = packets
        .by_ref()
        .take(7)
        .map(|packet| {
            (
                packet.payload_id().source_block_number(),
                packet.payload_id().encoding_symbol_id(),
            )
        })
        .collect();
    assert_eq!(
        ids,
        [(0, 0), (1, 0), (2, 0), (0, 1), (1, 1), (2, 1), (0, 2)]
    );
    assert_eq!(packets.len(), (3 << 24) - 7);
}

// A panic names the line that called.
#[test]
fn a_panic_is_the_callers() {
    static PLACE: Mutex<Option<String>> = Mutex::new(None);
    let hook = panic::take_hook();
    panic::set_hook(Box::new(|info| {
        *PLACE.lock().unwrap() = info
            .location()
            .map(|place: &Location| place.file().to_owned());
    }));
    let calls: [fn(); 5] = [
        || drop(Encoder::with_defaults(&[], 16)),
        || drop(Decoder::new(forged(8, 0))),
        || drop(EncodingPacket::deserialize(&[0])),
        || drop(SourceBlockEncodingPlan::generate(56404)),
        || Decoder::new(config()).add_new_packet(EncodingPacket::new(PayloadId::new(3, 0), vec![])),
    ];
    let places: Vec<Option<String>> = calls
        .iter()
        .map(|call| {
            assert!(panic::catch_unwind(call).is_err());
            PLACE.lock().unwrap().take()
        })
        .collect();
    panic::set_hook(hook);
    assert!(
        places
            .iter()
            .flatten()
            .all(|file| file.ends_with("refusals.rs")),
        "{places:?}"
    );
    assert_eq!(places.iter().flatten().count(), 5);
}
