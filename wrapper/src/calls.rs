//! The calls of the static library, each as a safe function. `include/reamertan.h` says what they
//! do.

use std::sync::LazyLock;

use crate::error::Error;
use crate::version::VERSION;

mod coders;

pub use coders::{BlockDecoder, BlockEncoder, Coder, Decoder, Encoder, Kind, Plan};

/// How many bytes spell a configuration.
const CONFIGURATION_LENGTH: usize = 12;

/// How many bytes of a packet spell its payload id.
pub const PAYLOAD_ID_LENGTH: usize = 4;

/// How many encoding symbol ids there are.
pub const ENCODING_SYMBOL_IDS: u32 = 1 << 24;

/// The greatest number of source symbols of a source block.
pub const GREATEST_BLOCK: u32 = 56403;

/// The memory in bytes that each sub-block is to fit, where nobody says another number.
pub const DEFAULT_DECODER_MEMORY: u64 = 10 * 1024 * 1024;

/// About how many bytes cross in one call, where they needn't all: few enough to stay in the processor's caches, and so
/// many that the call itself doesn't count.
pub const BYTES_AT_A_TIME: usize = 32 * 1024;

/// A configuration as RFC 6330 writes it.
pub type Configuration = [u8; CONFIGURATION_LENGTH];

/// The numbers of a configuration.
#[repr(C)]
#[derive(Clone, Copy, Debug, Default)]
pub struct Parameters {
    pub transfer_length: u64,
    pub symbol_size: u16,
    pub sub_blocks: u16,
    pub source_blocks: u8,
    pub alignment: u8,
}

/// Bytes of an object.
#[repr(C)]
#[derive(Clone, Copy, Debug, Default)]
pub struct Range {
    pub start: u64,
    pub end: u64,
}

unsafe extern "C" {
    fn reamertan_version() -> u32;
    fn reamertan_derive_configuration(
        object_length: u64,
        packet_size: u16,
        decoder_memory: u64,
        configuration: *mut Configuration,
    ) -> u8;
    fn reamertan_write_configuration(
        parameters: *const Parameters,
        configuration: *mut Configuration,
    ) -> u8;
    fn reamertan_read_configuration(
        configuration: *const Configuration,
        parameters: *mut Parameters,
    );
    fn reamertan_block_range(
        configuration: *const Configuration,
        block: u8,
        range: *mut Range,
    ) -> u8;
    fn reamertan_encoder_open(
        encoder: *mut *mut Encoder,
        configuration: *const Configuration,
        object: *const u8,
        object_length: usize,
    ) -> u8;
    fn reamertan_encoder_write(
        encoder: *mut Encoder,
        block: u8,
        first: u32,
        count: u32,
        packets: *mut u8,
        packets_length: usize,
    ) -> u8;
    fn reamertan_encoder_share(encoder: *mut Encoder, twin: *mut *mut Encoder) -> u8;
    fn reamertan_encoder_close(encoder: *mut *mut Encoder);
    fn reamertan_plan_open(plan: *mut *mut Plan, source_symbols: u16) -> u8;
    fn reamertan_plan_share(plan: *mut Plan, twin: *mut *mut Plan) -> u8;
    fn reamertan_plan_close(plan: *mut *mut Plan);
    fn reamertan_block_encoder_open(
        encoder: *mut *mut BlockEncoder,
        plan: *mut Plan,
        configuration: *const Configuration,
        block: u8,
        bytes: *const u8,
        length: usize,
    ) -> u8;
    fn reamertan_block_encoder_write(
        encoder: *mut BlockEncoder,
        first: u32,
        count: u32,
        packets: *mut u8,
        packets_length: usize,
    ) -> u8;
    fn reamertan_block_encoder_share(
        encoder: *mut BlockEncoder,
        twin: *mut *mut BlockEncoder,
    ) -> u8;
    fn reamertan_block_encoder_close(encoder: *mut *mut BlockEncoder);
    fn reamertan_decoder_open(
        decoder: *mut *mut Decoder,
        configuration: *const Configuration,
    ) -> u8;
    fn reamertan_decoder_add_packet(
        decoder: *mut Decoder,
        packet: *const u8,
        packet_length: usize,
        completes: *mut bool,
    ) -> u8;
    fn reamertan_decoder_is_complete(decoder: *mut Decoder) -> bool;
    fn reamertan_decoder_missing(decoder: *mut Decoder, block: u8, packets: *mut u32) -> u8;
    fn reamertan_decoder_write_block(
        decoder: *mut Decoder,
        block: u8,
        bytes: *mut u8,
        length: usize,
    ) -> u8;
    fn reamertan_decoder_write_object(
        decoder: *mut Decoder,
        object: *mut u8,
        object_length: usize,
    ) -> u8;
    fn reamertan_decoder_copy(decoder: *mut Decoder, twin: *mut *mut Decoder) -> u8;
    fn reamertan_decoder_close(decoder: *mut *mut Decoder);
    fn reamertan_block_decoder_open(
        decoder: *mut *mut BlockDecoder,
        configuration: *const Configuration,
        block: u8,
        length: u64,
    ) -> u8;
    fn reamertan_block_decoder_add_packets(
        decoder: *mut BlockDecoder,
        packets: *const u8,
        packets_length: usize,
    ) -> u8;
    fn reamertan_block_decoder_is_complete(decoder: *mut BlockDecoder) -> bool;
    fn reamertan_block_decoder_missing(decoder: *mut BlockDecoder, packets: *mut u32) -> u8;
    fn reamertan_block_decoder_write(
        decoder: *mut BlockDecoder,
        bytes: *mut u8,
        length: usize,
    ) -> u8;
    fn reamertan_block_decoder_copy(decoder: *mut BlockDecoder, twin: *mut *mut BlockDecoder)
    -> u8;
    fn reamertan_block_decoder_close(decoder: *mut *mut BlockDecoder);
}

/// Why no library is linked, or nothing.
const FAULT: &str = env!("REAMERTAN_FAULT");

/// Ends a build where no library is linked. By its parameter the constant is evaluated no sooner than
/// this is compiled, which `cargo check` and `cargo doc` don't do. They need no library.
fn link_library<const FOUND: bool>() {
    const { assert!(FOUND, "{}", FAULT) }
}

/// Panics where the library that is linked isn't of this package's version.
fn meet_library() {
    link_library::<{ FAULT.is_empty() }>();
    static LINKED: LazyLock<String> = LazyLock::new(|| {
        // SAFETY: the declaration is the header's.
        let number = unsafe { reamertan_version() };
        let [major, minor] = [number / 1_000_000, number / 1_000 % 1_000];
        format!("{major}.{minor}.{}", number % 1_000)
    });
    let linked = LINKED.as_str();
    assert!(
        linked == VERSION,
        "the library that is linked has version {linked}, and this package is for version {VERSION}"
    );
}

fn answered<T>(number: u8, value: T) -> Result<T, Error> {
    match number {
        0 => Ok(value),
        // Another version's numbers aren't met: that library is refused.
        number => Err(Error::of(number).expect("a number that the header has")),
    }
}

/// What a call answered. Panics with the refusal's name where it refused.
#[track_caller]
pub fn accepted<T>(answer: Result<T, Error>) -> T {
    // A closure would be the place that a panic names.
    match answer {
        Ok(value) => value,
        Err(refusal) => panic!("{refusal:?}"),
    }
}

pub fn derive(length: u64, packet_size: u16, memory: u64) -> Result<Configuration, Error> {
    meet_library();
    let mut made = [0; CONFIGURATION_LENGTH];
    // SAFETY: the declaration is the header's, and the pointer is that of twelve bytes.
    let number = unsafe { reamertan_derive_configuration(length, packet_size, memory, &mut made) };
    answered(number, made)
}

pub fn write(parameters: &Parameters) -> Result<Configuration, Error> {
    meet_library();
    let mut made = [0; CONFIGURATION_LENGTH];
    // SAFETY: as above, and the struct has the header's layout.
    let number = unsafe { reamertan_write_configuration(parameters, &mut made) };
    answered(number, made)
}

pub fn read(configuration: &Configuration) -> Parameters {
    meet_library();
    let mut read = Parameters::default();
    // SAFETY: as above.
    unsafe { reamertan_read_configuration(configuration, &mut read) };
    read
}

pub fn block_range(configuration: &Configuration, block: u8) -> Result<Range, Error> {
    meet_library();
    let mut range = Range::default();
    // SAFETY: as above.
    let number = unsafe { reamertan_block_range(configuration, block, &mut range) };
    answered(number, range)
}
