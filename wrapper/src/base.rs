//! Packets and configurations.

use crate::calls::{
    self, Configuration, DEFAULT_DECODER_MEMORY, ENCODING_SYMBOL_IDS, PAYLOAD_ID_LENGTH,
    Parameters, accepted,
};
use crate::error::Error;
#[cfg(feature = "serde")]
use crate::fields::{ConfigurationFields, PayloadIdFields};
#[cfg(feature = "serde")]
use serde::{Deserialize, Serialize};

/// Which symbol of which source block a packet carries.
///
/// ```
/// let id = raptorq::PayloadId::new(1, 258); // block 1, encoding symbol id 258
/// assert_eq!(id.serialize(), [1, 0, 1, 2]);
/// ```
#[derive(Clone, Debug, PartialEq, PartialOrd, Eq, Ord, Hash)]
#[cfg_attr(feature = "serde", derive(Serialize, Deserialize))]
#[cfg_attr(feature = "serde", serde(try_from = "PayloadIdFields"))]
pub struct PayloadId {
    source_block_number: u8,
    encoding_symbol_id: u32,
}

impl PayloadId {
    /// An id.
    ///
    /// # Panics
    ///
    /// Where [`PayloadId::try_new`] refuses.
    #[must_use]
    #[track_caller]
    pub fn new(source_block_number: u8, encoding_symbol_id: u32) -> PayloadId {
        accepted(Self::try_new(source_block_number, encoding_symbol_id))
    }

    /// An id. Refuses [`Error::EsiTooLarge`] where the encoding symbol id doesn't fit 24 bits.
    pub fn try_new(source_block_number: u8, encoding_symbol_id: u32) -> Result<PayloadId, Error> {
        if encoding_symbol_id >= ENCODING_SYMBOL_IDS {
            return Err(Error::EsiTooLarge);
        }
        Ok(PayloadId {
            source_block_number,
            encoding_symbol_id,
        })
    }

    /// The id that four bytes spell.
    #[must_use]
    pub fn deserialize(data: &[u8; PAYLOAD_ID_LENGTH]) -> PayloadId {
        PayloadId {
            source_block_number: data[0],
            encoding_symbol_id: u32::from_be_bytes([0, data[1], data[2], data[3]]),
        }
    }

    /// The four bytes that spell the id.
    #[must_use]
    pub fn serialize(&self) -> [u8; PAYLOAD_ID_LENGTH] {
        let id = self.encoding_symbol_id.to_be_bytes();
        [self.source_block_number, id[1], id[2], id[3]]
    }

    /// The number of the source block.
    #[must_use]
    pub fn source_block_number(&self) -> u8 {
        self.source_block_number
    }

    /// The encoding symbol id.
    #[must_use]
    pub fn encoding_symbol_id(&self) -> u32 {
        self.encoding_symbol_id
    }
}

/// A packet: an id, and the encoding symbol that it names.
///
/// ```
/// let id = raptorq::PayloadId::new(0, 60);
/// let packet = raptorq::EncodingPacket::new(id, vec![7; 96]);
/// let bytes = packet.serialize(); // 4 bytes of id, then the payload
/// assert_eq!(raptorq::EncodingPacket::deserialize(&bytes), packet);
/// ```
#[derive(Clone, Debug, PartialEq, PartialOrd, Eq, Ord, Hash)]
#[cfg_attr(feature = "serde", derive(Serialize, Deserialize))]
pub struct EncodingPacket {
    payload_id: PayloadId,
    data: Vec<u8>,
}

impl EncodingPacket {
    /// A packet of an id and its payload.
    #[must_use]
    pub fn new(payload_id: PayloadId, data: Vec<u8>) -> EncodingPacket {
        EncodingPacket { payload_id, data }
    }

    /// The packet that bytes spell.
    ///
    /// # Panics
    ///
    /// Where [`EncodingPacket::try_deserialize`] refuses.
    #[must_use]
    #[track_caller]
    pub fn deserialize(data: &[u8]) -> EncodingPacket {
        accepted(Self::try_deserialize(data))
    }

    /// The packet that bytes spell. Refuses [`Error::PacketTooShort`] below four bytes.
    pub fn try_deserialize(data: &[u8]) -> Result<EncodingPacket, Error> {
        let (id, payload) = data.split_first_chunk().ok_or(Error::PacketTooShort)?;
        Ok(EncodingPacket::new(
            PayloadId::deserialize(id),
            payload.to_vec(),
        ))
    }

    /// The bytes that spell the packet.
    #[must_use]
    pub fn serialize(&self) -> Vec<u8> {
        let mut bytes = Vec::with_capacity(PAYLOAD_ID_LENGTH + self.data.len());
        self.append_to(&mut bytes);
        bytes
    }

    // Appends these bytes to others.
    pub(crate) fn append_to(&self, bytes: &mut Vec<u8>) {
        bytes.extend(self.payload_id.serialize());
        bytes.extend_from_slice(&self.data);
    }

    /// The packet's id.
    #[must_use]
    pub fn payload_id(&self) -> &PayloadId {
        &self.payload_id
    }

    /// The encoding symbol.
    #[must_use]
    pub fn data(&self) -> &[u8] {
        &self.data
    }

    /// The packet's id and its encoding symbol.
    #[must_use]
    pub fn split(self) -> (PayloadId, Vec<u8>) {
        (self.payload_id, self.data)
    }
}

/// What encoder and decoder both know of an object: its length and how it is cut.
///
/// ```
/// let config = raptorq::ObjectTransmissionInformation::with_defaults(5000, 100);
/// let header = config.serialize();
/// assert_eq!(raptorq::ObjectTransmissionInformation::deserialize(&header), config);
/// ```
#[derive(Copy, Clone, Debug, PartialEq, PartialOrd, Eq, Ord, Hash)]
#[cfg_attr(feature = "serde", derive(Serialize, Deserialize))]
#[cfg_attr(feature = "serde", serde(try_from = "ConfigurationFields"))]
pub struct ObjectTransmissionInformation {
    transfer_length: u64,
    symbol_size: u16,
    num_source_blocks: u8,
    num_sub_blocks: u16,
    symbol_alignment: u8,
}

impl ObjectTransmissionInformation {
    /// A configuration.
    ///
    /// # Panics
    ///
    /// Where [`ObjectTransmissionInformation::try_new`] refuses.
    #[must_use]
    #[track_caller]
    pub fn new(
        transfer_length: u64,
        symbol_size: u16,
        source_blocks: u8,
        sub_blocks: u16,
        alignment: u8,
    ) -> ObjectTransmissionInformation {
        accepted(Self::try_new(
            transfer_length,
            symbol_size,
            source_blocks,
            sub_blocks,
            alignment,
        ))
    }

    /// A configuration. Refuses, in this order, [`Error::TransferTooLong`], [`Error::AlignmentZero`],
    /// [`Error::Misaligned`] and [`Error::TooManySymbols`].
    pub fn try_new(
        transfer_length: u64,
        symbol_size: u16,
        source_blocks: u8,
        sub_blocks: u16,
        alignment: u8,
    ) -> Result<ObjectTransmissionInformation, Error> {
        let asked = Parameters {
            transfer_length,
            symbol_size,
            sub_blocks,
            source_blocks,
            alignment,
        };
        calls::write(&asked).map(|bytes| Self::deserialize(&bytes))
    }

    /// The default configuration of an object (RFC 6330, section 4.3).
    ///
    /// # Panics
    ///
    /// Where [`ObjectTransmissionInformation::try_with_defaults`] refuses.
    #[must_use]
    #[track_caller]
    pub fn with_defaults(
        transfer_length: u64,
        max_packet_size: u16,
    ) -> ObjectTransmissionInformation {
        accepted(Self::try_with_defaults(transfer_length, max_packet_size))
    }

    /// The default configuration of an object (RFC 6330, section 4.3). Refuses, in this order,
    /// [`Error::PacketSizeZero`], [`Error::TransferLengthZero`], [`Error::TransferTooLong`],
    /// [`Error::MemoryRequirementTooSmall`] and [`Error::TooManyBlocks`].
    pub fn try_with_defaults(
        transfer_length: u64,
        max_packet_size: u16,
    ) -> Result<ObjectTransmissionInformation, Error> {
        Self::derived(transfer_length, max_packet_size, DEFAULT_DECODER_MEMORY)
    }

    pub(crate) fn derived(
        transfer_length: u64,
        max_packet_size: u16,
        decoder_memory: u64,
    ) -> Result<ObjectTransmissionInformation, Error> {
        let made = calls::derive(transfer_length, max_packet_size, decoder_memory)?;
        Ok(Self::deserialize(&made))
    }

    /// The configuration that twelve bytes spell.
    #[must_use]
    pub fn deserialize(data: &Configuration) -> ObjectTransmissionInformation {
        let read = calls::read(data);
        ObjectTransmissionInformation {
            transfer_length: read.transfer_length,
            symbol_size: read.symbol_size,
            num_source_blocks: read.source_blocks,
            num_sub_blocks: read.sub_blocks,
            symbol_alignment: read.alignment,
        }
    }

    /// The twelve bytes that spell the configuration.
    #[must_use]
    pub fn serialize(&self) -> Configuration {
        // F in five bytes, a reserved zero, T in two, Z in one, N in two, Al in one.
        let [_, _, _, f @ ..] = self.transfer_length.to_be_bytes();
        let t = self.symbol_size.to_be_bytes();
        let n = self.num_sub_blocks.to_be_bytes();
        let (z, al) = (self.num_source_blocks, self.symbol_alignment);
        [
            f[0], f[1], f[2], f[3], f[4], 0, t[0], t[1], z, n[0], n[1], al,
        ]
    }

    /// The length of the object, in bytes.
    #[must_use]
    pub fn transfer_length(&self) -> u64 {
        self.transfer_length
    }

    /// The size of a symbol, in bytes.
    #[must_use]
    pub fn symbol_size(&self) -> u16 {
        self.symbol_size
    }

    /// The number of source blocks.
    #[must_use]
    pub fn source_blocks(&self) -> u8 {
        self.num_source_blocks
    }

    /// The number of sub-blocks in each source block.
    #[must_use]
    pub fn sub_blocks(&self) -> u16 {
        self.num_sub_blocks
    }

    /// The symbol alignment, in bytes.
    #[must_use]
    pub fn symbol_alignment(&self) -> u8 {
        self.symbol_alignment
    }

    /// The same of a source block as an object of its own, of so many bytes.
    pub(crate) fn of_block(&self, length: u64) -> ObjectTransmissionInformation {
        ObjectTransmissionInformation {
            transfer_length: length,
            num_source_blocks: 1,
            ..*self
        }
    }
}
