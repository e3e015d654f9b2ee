//! The crate's examples and tests that touch public calls, over the proved codec.

use raptorq::{
    Decoder, Encoder, EncoderBuilder, EncodingPacket, ObjectTransmissionInformation, PayloadId,
};

/// A generator of numbers for tests: the high bits of a linear congruence.
struct Numbers(u64);

impl Numbers {
    fn below(&mut self, bound: u64) -> u64 {
        self.0 = self.0.wrapping_mul(6364136223846793005).wrapping_add(1442695040888963407);
        (self.0 >> 32) % bound
    }

    fn bytes(&mut self, count: usize) -> Vec<u8> {
        (0..count).map(|_| self.below(256) as u8).collect()
    }

    fn shuffle<T>(&mut self, items: &mut [T]) {
        for i in (1..items.len()).rev() {
            items.swap(i, self.below(i as u64 + 1) as usize);
        }
    }
}

fn answer(decoder: &mut Decoder, packets: Vec<EncodingPacket>) -> Option<Vec<u8>> {
    packets.into_iter().find_map(|packet| decoder.decode(packet))
}

#[test]
fn greatest_transfer_length() {
    let config = ObjectTransmissionInformation::new(942574504275, 65535, 255, 1, 1);
    assert_eq!(config.transfer_length(), 942574504275);
}

#[test]
fn bytes_of_ids_packets_and_configurations() {
    let mut numbers = Numbers(1);
    let id = PayloadId::new(numbers.below(256) as u8, numbers.below(1 << 24) as u32);
    assert_eq!(PayloadId::deserialize(&id.serialize()), id);
    let packet = EncodingPacket::new(id, numbers.bytes(1));
    assert_eq!(EncodingPacket::deserialize(&packet.serialize()), packet);
    let config = ObjectTransmissionInformation::with_defaults(123_456, 1280);
    assert_eq!(ObjectTransmissionInformation::deserialize(&config.serialize()), config);
}

#[test]
fn a_builder_makes_the_default_encoder() {
    let data = [0, 1, 2, 3];
    let mut builder = EncoderBuilder::new();
    builder.set_max_packet_size(1024);
    assert_eq!(builder.build(&data), Encoder::with_defaults(&data, 1024));
}

#[test]
fn source_packets_are_the_object_and_zeros() {
    for padding in [0, 42] {
        let data = Numbers(2).bytes(2048 - padding);
        let packets = Encoder::with_defaults(&data, 1024).get_encoded_packets(0);
        let sent: Vec<u8> = packets.iter().flat_map(|packet| packet.data().to_vec()).collect();
        assert_eq!(sent.len(), 2048);
        assert_eq!(sent[..data.len()], data);
        assert!(sent[data.len()..].iter().all(|&byte| byte == 0));
    }
}

#[test]
fn expected_ids() {
    let config = ObjectTransmissionInformation::new(6, 2, 1, 1, 1);
    let packets = Encoder::new(&[0, 1, 2, 3, 4, 5], config).get_encoded_packets(4);
    let ids: Vec<u32> = packets.iter().map(|p| p.payload_id().encoding_symbol_id()).collect();
    assert_eq!(ids, [0, 1, 2, 3, 4, 5, 6]);
    assert_eq!(packets[1], EncodingPacket::new(PayloadId::new(0, 1), vec![2, 3]));
}

#[test]
fn unique_blocks() {
    let config = ObjectTransmissionInformation::new(120, 10, 10, 0, 2);
    let packets = Encoder::new(&Numbers(6).bytes(120), config).get_encoded_packets(0);
    let blocks: Vec<u8> = packets.iter().map(|p| p.payload_id().source_block_number()).collect();
    assert_eq!(blocks, [0, 0, 1, 1, 2, 3, 4, 5, 6, 7, 8, 9]);
}

#[test]
fn example() {
    let mut numbers = Numbers(7);
    let data = numbers.bytes(10_000);
    let encoder = Encoder::with_defaults(&data, 1400);
    let packets = encoder.get_encoded_packets(15);
    let mut sent: Vec<Vec<u8>> = packets.iter().map(|packet| packet.serialize()).collect();
    numbers.shuffle(&mut sent);
    sent.truncate(sent.len() - 10);
    let came = sent.iter().map(|bytes| EncodingPacket::deserialize(bytes)).collect();
    let mut decoder = Decoder::new(encoder.get_config());
    assert_eq!(answer(&mut decoder, came), Some(data));
}

#[test]
fn random_erasure() {
    let mut numbers = Numbers(3);
    for _ in 0..8 {
        let length = 1 + numbers.below(200_000) as usize;
        let data = numbers.bytes(length);
        let mtu = (length / 100) as u64 + 1 + numbers.below(8_000);
        let encoder = Encoder::with_defaults(&data, mtu as u16);
        let mut packets = encoder.get_encoded_packets(15);
        numbers.shuffle(&mut packets);
        packets.truncate(packets.len() - 10);
        let mut decoder = Decoder::new(encoder.get_config());
        assert_eq!(answer(&mut decoder, packets), Some(data));
    }
}

#[test]
fn sub_block_erasure() {
    let mut numbers = Numbers(4);
    let data = numbers.bytes(10_000);
    let mut builder = EncoderBuilder::new();
    builder.set_decoder_memory_requirement(5000);
    builder.set_max_packet_size(500);
    let encoder = builder.build(&data);
    assert!(encoder.get_config().sub_blocks() > 2);

    let mut decoder = Decoder::new(encoder.get_config());
    let mut packets = encoder.get_encoded_packets(0);
    let last = packets.pop().expect("some packets");
    assert_eq!(answer(&mut decoder, packets), None);
    assert_eq!(decoder.decode(last), Some(data.clone()));

    let mut packets = encoder.get_encoded_packets(15);
    numbers.shuffle(&mut packets);
    packets.truncate(packets.len() - 10);
    let mut decoder = Decoder::new(encoder.get_config());
    assert_eq!(answer(&mut decoder, packets), Some(data));
}

#[test]
fn round_trips_of_each_size() {
    let mut numbers = Numbers(5);
    for symbols in 1..=40 {
        let data = numbers.bytes(symbols * 8);
        let config = ObjectTransmissionInformation::new(data.len() as u64, 8, 1, 1, 8);
        let mut packets = Encoder::new(&data, config).get_encoded_packets(4);
        packets.remove(0);
        let mut decoder = Decoder::new(config);
        assert_eq!(answer(&mut decoder, packets), Some(data));
    }
}

// Of a single source symbol, repair symbol 133 is zero, whatever that is.
#[test]
fn packets_that_contradict_each_other() {
    let mut decoder = Decoder::new(ObjectTransmissionInformation::new(1, 1, 1, 1, 1));
    for (id, byte) in [(133, 1), (0, 7), (1, 7)] {
        let packet = EncodingPacket::new(PayloadId::new(0, id), vec![byte]);
        assert_eq!(decoder.decode(packet), None);
    }
}

// A packet of a byte, of the first block.
fn short_packet(id: u32, byte: u8) -> EncodingPacket {
    EncodingPacket::new(PayloadId::new(0, id), vec![byte])
}

#[test]
fn packets_that_are_missing() {
    let mut decoder = Decoder::new(ObjectTransmissionInformation::new(3, 1, 1, 1, 1));
    for (id, missing) in [(0, 2), (0, 2), (7, 1), (2, 0)] {
        decoder.add_new_packet(short_packet(id, 0));
        assert_eq!(decoder.missing_packets(0), Some(missing));
    }
    assert_eq!(decoder.get_result(), Some(vec![0; 3]));
    let mut forged = Decoder::new(ObjectTransmissionInformation::new(1, 1, 1, 1, 1));
    forged.add_new_packet(short_packet(133, 1));
    assert_eq!(forged.missing_packets(0), Some(1));
    forged.add_new_packet(short_packet(0, 7));
    assert_eq!(forged.missing_packets(0), None);
}

// Symbol 133 decides nothing, so that a decoder has packets to be solved for later.
#[test]
fn a_clone_and_another_thread_go_on() {
    let mut decoder = Decoder::new(ObjectTransmissionInformation::new(1, 1, 1, 1, 1));
    assert_eq!(decoder.decode(short_packet(133, 0)), None);
    let mut clone = decoder.clone();
    assert_eq!(clone, decoder);
    assert_eq!(format!("{clone:?}"), format!("{decoder:?}"));
    let thread = std::thread::spawn(move || (decoder.decode(short_packet(0, 7)), decoder));
    let (answer, decoder) = thread.join().expect("the thread ends");
    assert_eq!(answer, Some(vec![7]));
    assert_eq!(clone.decode(short_packet(0, 7)), answer);
    assert_eq!(clone, decoder);
}

#[test]
#[should_panic(expected = "Misaligned")]
fn an_alignment_that_does_not_divide() {
    let _ = ObjectTransmissionInformation::new(10, 10, 1, 1, 3);
}
