//! What serde reads ids and configurations from: their fields, in the crate's order and with its names.
//! What `new` refuses is refused here too.

use crate::base::{ObjectTransmissionInformation, PayloadId};
use crate::error::Error;
use serde::Deserialize;

#[derive(Deserialize)]
#[serde(rename = "PayloadId")]
pub struct PayloadIdFields {
    source_block_number: u8,
    encoding_symbol_id: u32,
}

impl TryFrom<PayloadIdFields> for PayloadId {
    type Error = Error;

    fn try_from(read: PayloadIdFields) -> Result<PayloadId, Error> {
        PayloadId::try_new(read.source_block_number, read.encoding_symbol_id)
    }
}

#[derive(Deserialize)]
#[serde(rename = "ObjectTransmissionInformation")]
pub struct ConfigurationFields {
    transfer_length: u64,
    symbol_size: u16,
    num_source_blocks: u8,
    num_sub_blocks: u16,
    symbol_alignment: u8,
}

impl TryFrom<ConfigurationFields> for ObjectTransmissionInformation {
    type Error = Error;

    fn try_from(read: ConfigurationFields) -> Result<ObjectTransmissionInformation, Error> {
        ObjectTransmissionInformation::try_new(
            read.transfer_length,
            read.symbol_size,
            read.num_source_blocks,
            read.num_sub_blocks,
            read.symbol_alignment,
        )
    }
}
