//! Ids, packets and configurations by serde. The texts are what the crate 2.0.1 writes.
#![cfg(feature = "serde_support")]

use raptorq::{EncodingPacket, ObjectTransmissionInformation, PayloadId};
use serde::{Serialize, de::DeserializeOwned};
use std::fmt::Debug;

fn assert_writes<T: Serialize + DeserializeOwned + PartialEq + Debug>(value: T, text: &str) {
    assert_eq!(serde_json::to_string(&value).expect("a text"), text);
    assert_eq!(serde_json::from_str::<T>(text).expect("a value"), value);
}

fn refusal<T: DeserializeOwned + Debug>(text: &str) -> String {
    serde_json::from_str::<T>(text)
        .expect_err("a refusal")
        .to_string()
}

#[test]
fn writes_what_the_crate_writes() {
    assert_writes(
        PayloadId::new(255, 16777215),
        r#"{"source_block_number":255,"encoding_symbol_id":16777215}"#,
    );
    assert_writes(
        EncodingPacket::new(PayloadId::new(1, 2), vec![3, 255]),
        r#"{"payload_id":{"source_block_number":1,"encoding_symbol_id":2},"data":[3,255]}"#,
    );
    assert_writes(
        ObjectTransmissionInformation::new(942574504275, 65535, 255, 3, 5),
        r#"{"transfer_length":942574504275,"symbol_size":65535,"num_source_blocks":255,"num_sub_blocks":3,"symbol_alignment":5}"#,
    );
}

#[test]
fn refuses_what_new_refuses() {
    let packet = r#"{"payload_id":{"source_block_number":0,"encoding_symbol_id":16777216},"data":[]}"#;
    assert_eq!(refusal::<EncodingPacket>(packet), "an encoding symbol id is above 16777215 at line 1 column 69");
    let misaligned = r#"{"transfer_length":1,"symbol_size":9,"num_source_blocks":1,"num_sub_blocks":1,"symbol_alignment":8}"#;
    assert_eq!(refusal::<ObjectTransmissionInformation>(misaligned), "the symbol alignment doesn't divide the symbol size");
}
