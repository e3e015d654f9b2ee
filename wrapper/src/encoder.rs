//! Encoders.

use crate::base::{EncodingPacket, ObjectTransmissionInformation};
use crate::blocks::calculate_block_offsets;
use crate::calls::{
    self, BYTES_AT_A_TIME, Coder, DEFAULT_DECODER_MEMORY, ENCODING_SYMBOL_IDS, PAYLOAD_ID_LENGTH,
    accepted,
};
use crate::error::Error;
use crate::plans::{SourceBlockEncodingPlan, kept_plan};
use crate::shared::Shared;
use std::fmt;
use std::ops::Range;

/// Builds encoders by the memory of a decoder and a size of packets.
///
/// ```
/// let mut builder = raptorq::EncoderBuilder::new();
/// builder.set_max_packet_size(1280); // bytes of a payload
/// builder.set_decoder_memory_requirement(1 << 20); // bytes for the symbols of a sub-block
/// assert_eq!(builder.build(&[7; 5000]).get_config().symbol_size(), 1280);
/// ```
#[derive(Clone, Debug, PartialEq, Eq)]
pub struct EncoderBuilder {
    decoder_memory_requirement: u64,
    max_packet_size: u16,
}

impl EncoderBuilder {
    /// A builder for packets of at most 1024 bytes of payload, and decoders with 10 MiB of memory.
    #[must_use]
    pub fn new() -> EncoderBuilder {
        EncoderBuilder {
            decoder_memory_requirement: DEFAULT_DECODER_MEMORY,
            max_packet_size: 1024,
        }
    }

    /// Sets the memory, in bytes, that each sub-block is to fit.
    pub fn set_decoder_memory_requirement(&mut self, bytes: u64) {
        self.decoder_memory_requirement = bytes;
    }

    /// Sets the greatest size of a packet's payload, in bytes.
    pub fn set_max_packet_size(&mut self, bytes: u16) {
        self.max_packet_size = bytes;
    }

    /// The encoder of an object.
    ///
    /// # Panics
    ///
    /// Where [`EncoderBuilder::try_build`] refuses.
    #[must_use]
    #[track_caller]
    pub fn build(&self, data: &[u8]) -> Encoder {
        accepted(self.try_build(data))
    }

    /// The encoder of an object. Refuses what [`ObjectTransmissionInformation::try_with_defaults`] refuses.
    pub fn try_build(&self, data: &[u8]) -> Result<Encoder, Error> {
        let config = ObjectTransmissionInformation::derived(
            data.len() as u64,
            self.max_packet_size,
            self.decoder_memory_requirement,
        )?;
        Encoder::try_new(data, config)
    }
}

impl Default for EncoderBuilder {
    fn default() -> Self {
        Self::new()
    }
}

/// Makes the packets of an object.
///
/// ```
/// let encoder = raptorq::Encoder::with_defaults(&[7; 5000], 100); // bytes of a payload at most
/// let header = encoder.get_config().serialize(); // a decoder needs these 12 bytes
/// let packets = encoder.get_encoded_packets(30); // 30 repair packets a block
/// assert_eq!((header.len(), packets.len()), (12, 83));
/// ```
#[derive(Clone, Debug, PartialEq, Eq)]
pub struct Encoder {
    config: ObjectTransmissionInformation,
    blocks: Vec<SourceBlockEncoder>,
}

impl Encoder {
    /// The encoder of an object.
    ///
    /// # Panics
    ///
    /// Where [`Encoder::try_new`] refuses.
    #[must_use]
    #[track_caller]
    pub fn new(data: &[u8], config: ObjectTransmissionInformation) -> Encoder {
        accepted(Self::try_new(data, config))
    }

    /// The encoder of an object. Refuses, in this order, [`Error::SymbolSizeZero`], [`Error::SourceBlocksZero`],
    /// [`Error::AlignmentZero`], [`Error::Misaligned`], [`Error::BlockOverTable`], and [`Error::WrongDataLength`]
    /// where the object hasn't the configuration's length.
    pub fn try_new(data: &[u8], config: ObjectTransmissionInformation) -> Result<Encoder, Error> {
        let encoder = Coder::<calls::Encoder>::new(&config.serialize(), data)?;
        let sender = Shared::new(encoder);
        let size = usize::from(config.symbol_size());
        let offsets = calculate_block_offsets(data, &config).into_iter();
        let block = |(number, (start, end)): (u8, (usize, usize))| SourceBlockEncoder {
            source_block_id: number,
            source_symbols: ((end - start) / size) as u32,
            symbol_size: config.symbol_size(),
            sender: Sender::Object(sender.clone()),
        };
        Ok(Encoder {
            config,
            blocks: (0..=u8::MAX).zip(offsets).map(block).collect(),
        })
    }

    /// The encoder of an object in its default configuration.
    ///
    /// # Panics
    ///
    /// Where [`Encoder::try_with_defaults`] refuses.
    #[must_use]
    #[track_caller]
    pub fn with_defaults(data: &[u8], maximum_transmission_unit: u16) -> Encoder {
        accepted(Self::try_with_defaults(data, maximum_transmission_unit))
    }

    /// The encoder of an object in its default configuration. Refuses what
    /// [`ObjectTransmissionInformation::try_with_defaults`] refuses.
    pub fn try_with_defaults(
        data: &[u8],
        maximum_transmission_unit: u16,
    ) -> Result<Encoder, Error> {
        let length = data.len() as u64;
        let config =
            ObjectTransmissionInformation::try_with_defaults(length, maximum_transmission_unit)?;
        Encoder::try_new(data, config)
    }

    /// The configuration that a decoder needs.
    #[must_use]
    pub fn get_config(&self) -> ObjectTransmissionInformation {
        self.config
    }

    /// The packets of the source symbols of each block, and of so many repair symbols a block.
    ///
    /// # Panics
    ///
    /// With `EsiTooLarge` where there are no ids for so many.
    #[must_use]
    #[track_caller]
    pub fn get_encoded_packets(&self, repair_packets_per_block: u32) -> Vec<EncodingPacket> {
        let ids = |block: &SourceBlockEncoder| 0..block.repair_ids(0, repair_packets_per_block).end;
        let count = self.blocks.iter().map(|block| ids(block).len()).sum();
        let mut packets = Vec::with_capacity(count);
        for block in &self.blocks {
            block.append(ids(block), &mut packets);
        }
        packets
    }

    /// The encoders of the source blocks. Threads that ask them for packets go side by side.
    #[must_use]
    pub fn get_block_encoders(&self) -> &Vec<SourceBlockEncoder> {
        &self.blocks
    }

    /// All packets, one of each block in turn for each encoding symbol id, so that a loss hurts all blocks
    /// alike. An id that a block has no symbol for is a repair symbol's. There are 2^24 ids, so take as many as
    /// are wanted. The crate has no such call.
    ///
    /// ```
    /// let encoder = raptorq::Encoder::with_defaults(&[7; 5000], 100);
    /// let mut decoder = raptorq::Decoder::new(encoder.get_config());
    /// let mut packets = encoder.packets().skip(20); // the first 20 are lost
    /// assert_eq!(packets.find_map(|packet| decoder.decode(packet)), Some(vec![7; 5000]));
    /// ```
    #[must_use]
    pub fn packets(&self) -> Packets<'_> {
        Packets {
            blocks: &self.blocks,
            block: 0,
            esi: 0,
        }
    }
}

/// The packets of an encoder, which [`Encoder::packets`] returns.
#[derive(Clone, Debug)]
pub struct Packets<'a> {
    blocks: &'a [SourceBlockEncoder],
    // Of the next packet.
    block: usize,
    esi: u32,
}

impl Iterator for Packets<'_> {
    type Item = EncodingPacket;

    fn next(&mut self) -> Option<EncodingPacket> {
        if self.esi == ENCODING_SYMBOL_IDS {
            return None;
        }
        let packet = self.blocks[self.block]
            .packets(self.esi..self.esi + 1)
            .pop();
        self.block += 1;
        if self.block == self.blocks.len() {
            self.block = 0;
            self.esi += 1;
        }
        packet
    }

    fn size_hint(&self) -> (usize, Option<usize>) {
        let ids = (ENCODING_SYMBOL_IDS - self.esi) as usize;
        let left = ids * self.blocks.len() - self.block;
        (left, Some(left))
    }
}

impl ExactSizeIterator for Packets<'_> {}

impl std::iter::FusedIterator for Packets<'_> {}

/// Makes the packets of a source block.
///
/// ```
/// let config = raptorq::ObjectTransmissionInformation::new(160, 16, 1, 1, 8);
/// let encoder = raptorq::SourceBlockEncoder::new(0, &config, &[7; 160]); // K = 10 symbols
/// let mut packets = encoder.source_packets(); // encoding symbol ids 0 to K - 1
/// packets.extend(encoder.repair_packets(0, 5)); // K to K + 4
/// assert_eq!(packets[14].payload_id().encoding_symbol_id(), 14);
/// ```
#[derive(Clone)]
pub struct SourceBlockEncoder {
    source_block_id: u8,
    source_symbols: u32,
    symbol_size: u16,
    sender: Sender,
}

impl SourceBlockEncoder {
    /// The encoder of a block of these bytes, whole symbols, cut into sub-blocks as the configuration
    /// says. Its transfer length and its number of source blocks aren't read. The plans of the 64 numbers of
    /// symbols that were new last are kept for further blocks.
    ///
    /// # Panics
    ///
    /// Where [`SourceBlockEncoder::try_new`] refuses.
    #[must_use]
    #[track_caller]
    pub fn new(
        source_block_id: u8,
        config: &ObjectTransmissionInformation,
        data: &[u8],
    ) -> SourceBlockEncoder {
        accepted(Self::try_new(source_block_id, config, data))
    }

    /// The same. Refuses [`Error::BlockOverTable`] above 56403 symbols, and what
    /// [`SourceBlockEncoder::try_with_encoding_plan`] refuses.
    pub fn try_new(
        source_block_id: u8,
        config: &ObjectTransmissionInformation,
        data: &[u8],
    ) -> Result<SourceBlockEncoder, Error> {
        // Symbols of no bytes are refused below, and too many of them here.
        let symbols = data.len().checked_div(config.symbol_size().into());
        let symbols = u16::try_from(symbols.unwrap_or(0)).unwrap_or(u16::MAX);
        let mut plan = kept_plan(symbols)?;
        let encoder = plan.block_encoder(&config.serialize(), source_block_id, data)?;
        Ok(Self::of_coder(source_block_id, config, data, encoder))
    }

    /// The same by a plan.
    ///
    /// # Panics
    ///
    /// Where [`SourceBlockEncoder::try_with_encoding_plan`] refuses.
    #[must_use]
    #[track_caller]
    pub fn with_encoding_plan(
        source_block_id: u8,
        config: &ObjectTransmissionInformation,
        data: &[u8],
        plan: &SourceBlockEncodingPlan,
    ) -> SourceBlockEncoder {
        accepted(Self::try_with_encoding_plan(
            source_block_id,
            config,
            data,
            plan,
        ))
    }

    /// The same by a plan. Refuses [`Error::SymbolSizeZero`], [`Error::AlignmentZero`], [`Error::Misaligned`],
    /// [`Error::WrongDataLength`] where the last symbol isn't whole, and [`Error::PlanMismatch`] where the plan is
    /// one for another number of symbols.
    pub fn try_with_encoding_plan(
        source_block_id: u8,
        config: &ObjectTransmissionInformation,
        data: &[u8],
        plan: &SourceBlockEncodingPlan,
    ) -> Result<SourceBlockEncoder, Error> {
        let encoder = plan.block_encoder(&config.serialize(), source_block_id, data)?;
        Ok(Self::of_coder(source_block_id, config, data, encoder))
    }

    fn of_coder(
        source_block_id: u8,
        config: &ObjectTransmissionInformation,
        data: &[u8],
        encoder: Coder<calls::BlockEncoder>,
    ) -> SourceBlockEncoder {
        SourceBlockEncoder {
            source_block_id,
            source_symbols: (data.len() / usize::from(config.symbol_size())) as u32,
            symbol_size: config.symbol_size(),
            sender: Sender::Block(Shared::new(encoder)),
        }
    }

    /// The packets of the source symbols.
    #[must_use]
    pub fn source_packets(&self) -> Vec<EncodingPacket> {
        self.packets(0..self.source_symbols)
    }

    /// So many packets of repair symbols, from one on: the first is number 0.
    ///
    /// # Panics
    ///
    /// With `EsiTooLarge` where one would have an encoding symbol id of more than 24 bits.
    #[must_use]
    #[track_caller]
    pub fn repair_packets(&self, start_repair_symbol_id: u32, packets: u32) -> Vec<EncodingPacket> {
        self.packets(self.repair_ids(start_repair_symbol_id, packets))
    }

    /// Writes packets over a buffer, as many as it holds, one behind another: each is a payload id of 4 bytes and a
    /// symbol. Their encoding symbol ids go from one on, and those from the number of source symbols on are repair
    /// symbols'. So a datagram is made where it is sent from. The crate has no such call.
    ///
    /// Refuses [`Error::WrongBuffer`] where the buffer isn't as long as whole packets, and [`Error::EsiTooLarge`]
    /// where an id would have more than 24 bits. The buffer is as it was then.
    ///
    /// ```
    /// let config = raptorq::ObjectTransmissionInformation::new(160, 16, 1, 1, 8);
    /// let encoder = raptorq::SourceBlockEncoder::new(0, &config, &[7; 160]); // K = 10 symbols
    /// let mut packets = [0; 5 * 20]; // 4 bytes of id and 16 of a symbol each
    /// encoder.write_packets(10, &mut packets).unwrap(); // the first five repair packets
    /// assert_eq!(packets[20..40], encoder.repair_packets(1, 1)[0].serialize());
    /// ```
    pub fn write_packets(
        &self,
        first_encoding_symbol_id: u32,
        packets: &mut [u8],
    ) -> Result<(), Error> {
        let length = PAYLOAD_ID_LENGTH + usize::from(self.symbol_size);
        let count = u32::try_from(packets.len() / length).map_err(|_| Error::EsiTooLarge)?;
        self.write(first_encoding_symbol_id, count, packets)
    }

    // The encoding symbol ids of these repair packets.
    #[track_caller]
    fn repair_ids(&self, start_repair_symbol_id: u32, packets: u32) -> Range<u32> {
        if packets == 0 {
            return self.source_symbols..self.source_symbols;
        }
        let first = u64::from(self.source_symbols) + u64::from(start_repair_symbol_id);
        let end = first + u64::from(packets);
        assert!(end <= u64::from(ENCODING_SYMBOL_IDS), "EsiTooLarge");
        first as u32..end as u32
    }

    // The packets of these encoding symbol ids.
    fn packets(&self, ids: Range<u32>) -> Vec<EncodingPacket> {
        let mut packets = Vec::with_capacity(ids.len());
        self.append(ids, &mut packets);
        packets
    }

    // Appends them.
    fn append(&self, ids: Range<u32>, packets: &mut Vec<EncodingPacket>) {
        let length = PAYLOAD_ID_LENGTH + usize::from(self.symbol_size);
        let most = BYTES_AT_A_TIME.div_ceil(length);
        let mut bytes = vec![0; most.min(ids.len()) * length];
        for first in ids.clone().step_by(most) {
            let count = (ids.end - first).min(most as u32);
            let filled = &mut bytes[..count as usize * length];
            accepted(self.write(first, count, filled));
            packets.extend(filled.chunks_exact(length).map(EncodingPacket::deserialize));
        }
    }

    // Fills a buffer with so many packets, whose encoding symbol ids go from one on.
    fn write(&self, first: u32, count: u32, packets: &mut [u8]) -> Result<(), Error> {
        let number = self.source_block_id;
        match &self.sender {
            Sender::Object(object) => {
                object.call(|encoder| encoder.write(number, first, count, packets))
            }
            Sender::Block(block) => block.call(|encoder| encoder.write(first, count, packets)),
        }
    }
}

impl fmt::Debug for SourceBlockEncoder {
    fn fmt(&self, f: &mut fmt::Formatter<'_>) -> fmt::Result {
        f.debug_struct("SourceBlockEncoder")
            .field("source_block_id", &self.source_block_id)
            .field("source_symbols", &self.source_symbols)
            .field("symbol_size", &self.symbol_size)
            .finish_non_exhaustive()
    }
}

impl PartialEq for SourceBlockEncoder {
    fn eq(&self, other: &SourceBlockEncoder) -> bool {
        self.source_block_id == other.source_block_id
            && self.symbol_size == other.symbol_size
            && self.source_packets() == other.source_packets()
    }
}

impl Eq for SourceBlockEncoder {}

// The library's encoder of a block's object, or of the block alone.
#[derive(Clone)]
enum Sender {
    Object(Shared<calls::Encoder>),
    Block(Shared<calls::BlockEncoder>),
}
