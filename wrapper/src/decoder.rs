//! Decoders.

use crate::base::{EncodingPacket, ObjectTransmissionInformation};
use crate::calls::{self, BYTES_AT_A_TIME, Coder, accepted};
use crate::error::Error;
use crate::shared::Locked;
use std::fmt;

/// Puts an object together again from its packets.
///
/// ```
/// let object = [7; 5000];
/// let encoder = raptorq::Encoder::with_defaults(&object, 100);
/// let mut decoder = raptorq::Decoder::new(encoder.get_config());
/// let packets = encoder.get_encoded_packets(30).into_iter().skip(25);
/// let answer = packets.into_iter().find_map(|packet| decoder.decode(packet));
/// assert_eq!(answer, Some(object.to_vec())); // `None` where more packets are needed
/// ```
#[derive(Clone)]
pub struct Decoder {
    config: ObjectTransmissionInformation,
    decoder: Locked<calls::Decoder>,
    // A packet's bytes, in memory that the next one uses again.
    bytes: Vec<u8>,
}

impl Decoder {
    /// The decoder of an object in this configuration.
    ///
    /// # Panics
    ///
    /// Where [`Decoder::try_new`] refuses.
    #[must_use]
    #[track_caller]
    pub fn new(config: ObjectTransmissionInformation) -> Decoder {
        accepted(Self::try_new(config))
    }

    /// The decoder of an object in this configuration, which may be one that came from a network. Refuses, in
    /// this order, [`Error::SymbolSizeZero`], [`Error::SourceBlocksZero`], [`Error::AlignmentZero`],
    /// [`Error::Misaligned`] and [`Error::BlockOverTable`].
    ///
    /// A configuration may be one of an object of 900 GB: look at [`transfer_length`] before memory is taken.
    ///
    /// [`transfer_length`]: ObjectTransmissionInformation::transfer_length
    pub fn try_new(config: ObjectTransmissionInformation) -> Result<Decoder, Error> {
        let decoder = Coder::<calls::Decoder>::new(&config.serialize())?;
        Ok(Decoder {
            config,
            decoder: Locked::new(decoder),
            bytes: Vec::new(),
        })
    }

    /// Does nothing: there is one way to solve, for blocks of any size.
    pub fn set_sparse_threshold(&mut self, _value: u32) {}

    /// Takes a packet and answers the object, once its packets determine it.
    ///
    /// # Panics
    ///
    /// As [`Decoder::add_new_packet`] does.
    #[track_caller]
    pub fn decode(&mut self, packet: EncodingPacket) -> Option<Vec<u8>> {
        self.add_new_packet(packet);
        self.get_result()
    }

    /// Takes a packet and answers the object, once its packets determine it. Refuses what
    /// [`Decoder::add_bytes`] refuses.
    pub fn try_decode(&mut self, packet: EncodingPacket) -> Result<Option<Vec<u8>>, Error> {
        self.try_add_new_packet(packet)?;
        Ok(self.get_result())
    }

    /// Takes a packet. One that contradicts others is taken without a panic, and from then on there is no answer.
    ///
    /// # Panics
    ///
    /// Where [`Decoder::add_bytes`] refuses otherwise.
    #[track_caller]
    pub fn add_new_packet(&mut self, packet: EncodingPacket) {
        unless_contradictory(self.try_add_new_packet(packet));
    }

    /// Takes a packet. Refuses what [`Decoder::add_bytes`] refuses.
    pub fn try_add_new_packet(&mut self, packet: EncodingPacket) -> Result<(), Error> {
        self.bytes.clear();
        packet.append_to(&mut self.bytes);
        self.decoder.get_mut().add_packet(&self.bytes)
    }

    /// Takes a packet as it came, a payload id of 4 bytes and a symbol. The crate has no such call.
    ///
    /// Refuses, in this order, [`Error::PacketTooShort`], [`Error::UnknownBlock`] and
    /// [`Error::WrongPayloadSize`], and goes on as if the packet hadn't come. [`Error::Contradiction`] says that
    /// packets of its block contradict each other: some are damaged or forged, and there is no answer any more.
    /// After [`Error::OutOfMemory`] the next packet tries again.
    ///
    /// ```
    /// # use raptorq::{Decoder, Encoder, Error};
    /// let encoder = Encoder::with_defaults(&[7; 5000], 100);
    /// let mut decoder = Decoder::try_new(encoder.get_config())?;
    /// assert_eq!(decoder.add_bytes(&[0, 0]), Err(Error::PacketTooShort));
    /// for packet in encoder.packets().take(60) {
    ///     decoder.add_bytes(&packet.serialize())?;
    /// }
    /// assert_eq!(decoder.get_result(), Some(vec![7; 5000]));
    /// # Ok::<(), Error>(())
    /// ```
    pub fn add_bytes(&mut self, packet: &[u8]) -> Result<(), Error> {
        self.decoder.get_mut().add_packet(packet)
    }

    /// How many packets more a source block needs at least, as
    /// [`SourceBlockDecoder::missing_packets`] says. The crate has no such call.
    ///
    /// # Panics
    ///
    /// With `UnknownBlock` where the block is none of the object's.
    #[must_use]
    #[track_caller]
    pub fn missing_packets(&self, source_block_number: u8) -> Option<u32> {
        unless_contradictory(self.decoder.lock().missing(source_block_number))
    }

    /// The object, where its packets determine it. None where some contradicted each other.
    #[must_use]
    #[track_caller]
    pub fn get_result(&self) -> Option<Vec<u8>> {
        let mut decoder = self.decoder.lock();
        let length = self.config.transfer_length() as usize;
        let is_complete = decoder.is_complete();
        is_complete.then(|| accepted(decoder.object(length)))
    }

    // What a block lacks, and the object's bytes in it where that is nothing.
    fn block(&self, number: u8) -> (Option<u32>, Option<Vec<u8>>) {
        let range = accepted(calls::block_range(&self.config.serialize(), number));
        let end = range.end.min(self.config.transfer_length());
        let length = end.saturating_sub(range.start) as usize;
        (
            self.missing_packets(number),
            self.decoder.lock().block(number, length).ok(),
        )
    }
}

impl fmt::Debug for Decoder {
    fn fmt(&self, f: &mut fmt::Formatter<'_>) -> fmt::Result {
        let blocks = 0..self.config.source_blocks();
        let missing: Vec<_> = blocks.map(|block| self.missing_packets(block)).collect();
        f.debug_struct("Decoder")
            .field("config", &self.config)
            .field("missing_packets", &missing)
            .finish_non_exhaustive()
    }
}

/// Whether both have one configuration, and of each block lack as many packets or have the same bytes.
impl PartialEq for Decoder {
    fn eq(&self, other: &Decoder) -> bool {
        let mut blocks = 0..self.config.source_blocks();
        self.config == other.config && blocks.all(|block| self.block(block) == other.block(block))
    }
}

impl Eq for Decoder {}

/// Puts a source block together again from its packets.
///
/// ```
/// let config = raptorq::ObjectTransmissionInformation::new(160, 16, 1, 1, 8);
/// let encoder = raptorq::SourceBlockEncoder::new(0, &config, &[7; 160]);
/// let mut decoder = raptorq::SourceBlockDecoder::new(0, &config, 160); // block 0, of 160 bytes
/// assert_eq!(decoder.decode(encoder.repair_packets(0, 11)), Some(vec![7; 160]));
/// ```
#[derive(Clone)]
pub struct SourceBlockDecoder {
    source_block_id: u8,
    // Of the block as an object of its own.
    config: ObjectTransmissionInformation,
    decoder: Locked<calls::BlockDecoder>,
    // Packets that are to be handed over, one behind another, in memory that is used again.
    bytes: Vec<u8>,
}

impl SourceBlockDecoder {
    /// The decoder of a block of so many bytes, cut into sub-blocks as the configuration says. Its
    /// transfer length and its number of source blocks aren't read.
    ///
    /// # Panics
    ///
    /// Where [`SourceBlockDecoder::try_new`] refuses.
    #[must_use]
    #[track_caller]
    pub fn new(
        source_block_id: u8,
        config: &ObjectTransmissionInformation,
        block_length: u64,
    ) -> SourceBlockDecoder {
        accepted(Self::try_new(source_block_id, config, block_length))
    }

    /// The same. Refuses [`Error::SymbolSizeZero`], [`Error::AlignmentZero`], [`Error::Misaligned`], and
    /// [`Error::BlockOverTable`] above 56403 symbols.
    pub fn try_new(
        source_block_id: u8,
        config: &ObjectTransmissionInformation,
        block_length: u64,
    ) -> Result<SourceBlockDecoder, Error> {
        let configuration = config.serialize();
        let decoder =
            Coder::<calls::BlockDecoder>::new(&configuration, source_block_id, block_length)?;
        // Symbols of no bytes were refused.
        let length = block_length.next_multiple_of(config.symbol_size().into());
        Ok(SourceBlockDecoder {
            source_block_id,
            config: config.of_block(length),
            decoder: Locked::new(decoder),
            bytes: Vec::new(),
        })
    }

    /// Does nothing: there is one way to solve, for blocks of any size.
    pub fn set_sparse_threshold(&mut self, _value: u32) {}

    /// Takes packets and answers the block, once its packets determine it; with no packet, once more.
    /// Where some contradict each other it is never answered.
    ///
    /// # Panics
    ///
    /// Where [`SourceBlockDecoder::try_decode`] refuses otherwise.
    #[track_caller]
    pub fn decode<T: IntoIterator<Item = EncodingPacket>>(
        &mut self,
        packets: T,
    ) -> Option<Vec<u8>> {
        unless_contradictory(self.try_decode(packets)).flatten()
    }

    /// The same. Refuses [`Error::UnknownBlock`] where a packet is another block's and
    /// [`Error::WrongPayloadSize`] where its payload hasn't the size of a symbol, and has taken those before it
    /// then. [`Error::Contradiction`] says that packets contradict each other: there is no answer any more.
    pub fn try_decode<T: IntoIterator<Item = EncodingPacket>>(
        &mut self,
        packets: T,
    ) -> Result<Option<Vec<u8>>, Error> {
        let mut checked = Ok(());
        for packet in packets {
            checked = self.check(&packet);
            if checked.is_err() {
                break;
            }
            packet.append_to(&mut self.bytes);
            if self.bytes.len() >= BYTES_AT_A_TIME {
                self.hand_over()?;
            }
        }
        self.hand_over()?;
        checked?;
        Ok(self.answer())
    }

    /// How many packets more the block needs at least, of ids that didn't come yet: with fewer it isn't
    /// answered, whichever they are. That is the number of its source symbols, less that of the ids that
    /// came, or 1 where these are as many and don't determine it. It is 0 where the block is answered.
    /// None where its packets were found to contradict each other. The crate has no such call.
    #[must_use]
    pub fn missing_packets(&self) -> Option<u32> {
        unless_contradictory(self.decoder.lock().missing())
    }

    // In a row of packets the library sees neither where one of another size begins nor that it ends.
    fn check(&self, packet: &EncodingPacket) -> Result<(), Error> {
        if packet.payload_id().source_block_number() != self.source_block_id {
            return Err(Error::UnknownBlock);
        }
        if packet.data().len() != usize::from(self.config.symbol_size()) {
            return Err(Error::WrongPayloadSize);
        }
        Ok(())
    }

    // Those that memory is refused for are handed over once more.
    fn hand_over(&mut self) -> Result<(), Error> {
        let answer = self.decoder.get_mut().add_packets(&self.bytes);
        if answer != Err(Error::OutOfMemory) {
            self.bytes.clear();
        }
        answer
    }

    fn answer(&self) -> Option<Vec<u8>> {
        let mut decoder = self.decoder.lock();
        let length = self.config.transfer_length() as usize;
        let is_complete = decoder.is_complete();
        is_complete.then(|| accepted(decoder.block(length)))
    }
}

impl fmt::Debug for SourceBlockDecoder {
    fn fmt(&self, f: &mut fmt::Formatter<'_>) -> fmt::Result {
        f.debug_struct("SourceBlockDecoder")
            .field("source_block_id", &self.source_block_id)
            .field("config", &self.config)
            .field("missing_packets", &self.missing_packets())
            .finish_non_exhaustive()
    }
}

/// Whether both are of one block, and lack as many packets or have the same bytes.
impl PartialEq for SourceBlockDecoder {
    fn eq(&self, other: &SourceBlockDecoder) -> bool {
        self.source_block_id == other.source_block_id
            && self.config == other.config
            && self.missing_packets() == other.missing_packets()
            && self.answer() == other.answer()
    }
}

impl Eq for SourceBlockDecoder {}

// What was answered, and nothing where packets contradict each other. Panics where it was refused otherwise.
#[track_caller]
fn unless_contradictory<T>(answer: Result<T, Error>) -> Option<T> {
    match answer {
        Err(Error::Contradiction) => None,
        answer => Some(accepted(answer)),
    }
}
