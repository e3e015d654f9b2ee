//! Why calls refuse.

use std::fmt;

/// Why a call refuses. Its name is what a call panics with that returns no `Result`. Made by `errors/make_lists`.
///
/// ```
/// let refusal = raptorq::EncodingPacket::try_deserialize(&[0, 0]).unwrap_err();
/// assert_eq!(refusal, raptorq::Error::PacketTooShort);
/// assert_eq!(refusal.to_string(), "a packet is shorter than its payload id");
/// ```
#[derive(Clone, Copy, Debug, PartialEq, Eq, Hash)]
#[non_exhaustive]
#[repr(u8)]
pub enum Error {
    /// The object is longer than 942574504275 bytes.
    TransferTooLong = 1,
    /// The symbol alignment is 0.
    AlignmentZero = 2,
    /// The symbol alignment doesn't divide the symbol size.
    Misaligned = 3,
    /// A source block has more than 56403 symbols.
    TooManySymbols = 4,
    /// The symbol size is 0.
    SymbolSizeZero = 5,
    /// The number of source blocks is 0.
    SourceBlocksZero = 6,
    /// A source block has more symbols than the table's greatest row, 56403.
    BlockOverTable = 7,
    /// The object has another length than its configuration says.
    WrongDataLength = 8,
    /// A row of the table doesn't determine the intermediate symbols.
    Singular = 9,
    /// A plan was made for another number of source symbols than a block has, or over another row of the table.
    PlanMismatch = 10,
    /// A block would need encoding symbol ids above 2^24 - 1.
    EsiTooLarge = 11,
    /// A packet is shorter than its payload id.
    PacketTooShort = 12,
    /// A packet's payload has another length than a symbol.
    WrongPayloadSize = 13,
    /// A source block that a packet or a call names is none of the object's.
    UnknownBlock = 14,
    /// The packet size is 0.
    PacketSizeZero = 15,
    /// The object's length is 0.
    TransferLengthZero = 16,
    /// No row of the table fits the decoder's memory.
    MemoryRequirementTooSmall = 17,
    /// The object would need more than 255 source blocks.
    TooManyBlocks = 18,
    /// malloc or realloc refused.
    OutOfMemory = 21,
    /// The packets of a block determine it, and no block fits all of them: some are damaged or forged.
    Contradiction = 22,
    /// A buffer that is to be filled has another length than what is to be written.
    WrongBuffer = 24,
    /// The packets don't determine the object, or the block asked for, or some of them contradict each other.
    Incomplete = 25,
}

impl Error {
    /// Its number, as `include/reamertan.h` has it.
    #[must_use]
    pub fn number(self) -> u8 {
        self as u8
    }

    // The error of a number.
    pub(crate) fn of(number: u8) -> Option<Error> {
        Some(match number {
            1 => Error::TransferTooLong,
            2 => Error::AlignmentZero,
            3 => Error::Misaligned,
            4 => Error::TooManySymbols,
            5 => Error::SymbolSizeZero,
            6 => Error::SourceBlocksZero,
            7 => Error::BlockOverTable,
            8 => Error::WrongDataLength,
            9 => Error::Singular,
            10 => Error::PlanMismatch,
            11 => Error::EsiTooLarge,
            12 => Error::PacketTooShort,
            13 => Error::WrongPayloadSize,
            14 => Error::UnknownBlock,
            15 => Error::PacketSizeZero,
            16 => Error::TransferLengthZero,
            17 => Error::MemoryRequirementTooSmall,
            18 => Error::TooManyBlocks,
            21 => Error::OutOfMemory,
            22 => Error::Contradiction,
            24 => Error::WrongBuffer,
            25 => Error::Incomplete,
            _ => return None,
        })
    }
}

impl fmt::Display for Error {
    #[rustfmt::skip]
    fn fmt(&self, f: &mut fmt::Formatter<'_>) -> fmt::Result {
        f.write_str(match self {
            Error::TransferTooLong => "the object is too long",
            Error::AlignmentZero => "the symbol alignment is 0",
            Error::Misaligned => "the symbol alignment doesn't divide the symbol size",
            Error::TooManySymbols => "a source block has more than 56403 symbols",
            Error::SymbolSizeZero => "the symbol size is 0",
            Error::SourceBlocksZero => "the number of source blocks is 0",
            Error::BlockOverTable => "a source block has more symbols than the table's greatest row",
            Error::WrongDataLength => "the object has another length than its configuration says",
            Error::Singular => "a row of the table doesn't determine the intermediate symbols",
            Error::PlanMismatch => "the plan is of other blocks",
            Error::EsiTooLarge => "an encoding symbol id is above 16777215",
            Error::PacketTooShort => "a packet is shorter than its payload id",
            Error::WrongPayloadSize => "a packet's payload has another length than a symbol",
            Error::UnknownBlock => "the object has no such source block",
            Error::PacketSizeZero => "the packet size is 0",
            Error::TransferLengthZero => "the object's length is 0",
            Error::MemoryRequirementTooSmall => "no row of the table fits the decoder's memory",
            Error::TooManyBlocks => "the object would need more than 255 source blocks",
            Error::OutOfMemory => "there is no memory",
            Error::Contradiction => "packets of a source block contradict each other",
            Error::WrongBuffer => "the buffer has another length than what is to be written",
            Error::Incomplete => "the packets don't determine it",
        })
    }
}

impl std::error::Error for Error {}
