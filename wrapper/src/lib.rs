//! RaptorQ (RFC 6330) by a codec that is proved, under the names of the crate `raptorq` 2.0.1.
//!
//! ```
//! use raptorq::{Decoder, Encoder};
//!
//! let object = vec![7; 5000];
//! let encoder = Encoder::with_defaults(&object, 96); // bytes of a symbol at most; a packet has 4 more than its symbol
//! let packets = encoder.get_encoded_packets(30); // 30 repair packets a block
//! let mut decoder = Decoder::new(encoder.get_config());
//! let answer = packets.into_iter().skip(25).find_map(|packet| decoder.decode(packet));
//! assert_eq!(answer, Some(object));
//! ```
//!
//! Packets have to arrive undamaged or not at all: put a checksum around each.
//!
//! A program that uses the crate changes its dependency and nothing else. Where the crate panics, these
//! calls do too, with the name of the refusal; where they panic alone, `README.md` says. Beside each stands
//! one that returns a `Result`, its name after `try_`: take these for what a network brings.
#![deny(unsafe_code)]

#[cfg(feature = "benchmarking")]
compile_error!(
    "the feature `benchmarking` isn't offered: it makes inner types of the crate public, which aren't here. `set_sparse_threshold` needs no feature."
);
#[cfg(feature = "python")]
compile_error!("the feature `python` isn't offered: this is a library for Rust alone.");
#[cfg(all(feature = "serde_support", not(feature = "serde")))]
compile_error!(
    "`serde_support` isn't in this package, which has no dependency, not even an optional one, so that it builds where cargo can't reach crates.io. The package in the repository's folder wrapper/serde, of the same code, has it: name that folder in the place of this one."
);

mod base;
mod blocks;
// The calls of the static library, alone, are unsafe.
#[allow(unsafe_code)]
mod calls;
mod decoder;
mod encoder;
mod error;
#[cfg(feature = "serde")]
mod fields;
mod plans;
mod shared;
mod version;

pub use base::{EncodingPacket, ObjectTransmissionInformation, PayloadId};
pub use blocks::{calculate_block_offsets, extended_source_block_symbols, partition};
pub use decoder::{Decoder, SourceBlockDecoder};
pub use encoder::{Encoder, EncoderBuilder, Packets, SourceBlockEncoder};
pub use error::Error;
pub use plans::SourceBlockEncodingPlan;
