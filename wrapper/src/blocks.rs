//! How an object is cut into source blocks.

use crate::base::ObjectTransmissionInformation;
use crate::calls::{self, GREATEST_BLOCK, accepted};

/// The function Partition of RFC 6330, section 4.4.1.2: `i` things in `j` parts as equal as they can
/// be. Answers the size of the larger parts, that of the smaller ones, and how many there are of
/// each.
///
/// # Panics
///
/// Where `j` is 0.
#[must_use]
#[track_caller]
pub fn partition<TI, TJ>(i: TI, j: TJ) -> (u32, u32, u32, u32)
where
    TI: Into<u32>,
    TJ: Into<u32>,
{
    let (things, parts) = (i.into(), j.into());
    let larger = things % parts;
    (
        things.div_ceil(parts),
        things / parts,
        larger,
        parts - larger,
    )
}

/// Where each source block begins and where it ends in the object, in bytes (RFC 6330, section
/// 4.4.1.2). The last blocks can end past it. The object itself isn't read.
///
/// # Panics
///
/// Where the symbol size or the number of source blocks is 0, or a block has more than 56403 symbols.
#[must_use]
#[track_caller]
pub fn calculate_block_offsets(
    _data: &[u8],
    config: &ObjectTransmissionInformation,
) -> Vec<(usize, usize)> {
    let configuration = config.serialize();
    // Where there are no blocks, the first is asked for and refused.
    let blocks = config.source_blocks().max(1);
    let range = |number| accepted(calls::block_range(&configuration, number));
    (0..blocks)
        .map(range)
        .map(|range| (range.start as usize, range.end as usize))
        .collect()
}

/// The number K' of symbols of the extended source block, with padding symbols, of so many source
/// symbols (RFC 6330, section 5.3.1).
///
/// # Panics
///
/// Above 56403.
#[must_use]
#[track_caller]
pub fn extended_source_block_symbols(source_block_symbols: u32) -> u32 {
    assert!(source_block_symbols <= GREATEST_BLOCK, "TooManySymbols");
    // The library has the table. An object of symbols of a byte is one block by default from K' bytes of memory on.
    let symbols = source_block_symbols.max(1);
    let (mut least, mut greatest) = (symbols, GREATEST_BLOCK);
    while least < greatest {
        let middle = (least + greatest) / 2;
        if is_one_block(symbols, middle) {
            greatest = middle;
        } else {
            least = middle + 1;
        }
    }
    least
}

// Whether so many symbols of a byte are one block by default, with so many bytes of memory.
fn is_one_block(symbols: u32, memory: u32) -> bool {
    calls::derive(symbols.into(), 1, memory.into())
        .is_ok_and(|configuration| calls::read(&configuration).source_blocks == 1)
}
