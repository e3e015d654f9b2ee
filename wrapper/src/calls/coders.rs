//! The library's coders, each behind a pointer that is closed where it is dropped.

use super::*;
use std::ptr::{NonNull, null_mut};

type Close<K> = unsafe extern "C" fn(*mut *mut K);
type Twin<K> = unsafe extern "C" fn(*mut K, *mut *mut K) -> u8;

/// A kind of coder: what frees one, and what makes a further pointer to an encoder or a plan, or a copy of a decoder.
pub trait Kind: Sized {
    const CLOSE: Close<Self>;
    const TWIN: Twin<Self>;
}

macro_rules! kinds {
    ($($(#[$says:meta])* $kind:ident: $close:ident, $twin:ident;)*) => {$(
        $(#[$says])*
        #[repr(C)]
        pub struct $kind([u8; 0]);

        impl Kind for $kind {
            const CLOSE: Close<Self> = $close;
            const TWIN: Twin<Self> = $twin;
        }
    )*};
}

kinds! {
    /// Makes the packets of an object.
    Encoder: reamertan_encoder_close, reamertan_encoder_share;
    /// Solves the equations of source blocks of one number of symbols.
    Plan: reamertan_plan_close, reamertan_plan_share;
    /// Makes the packets of a source block.
    BlockEncoder: reamertan_block_encoder_close, reamertan_block_encoder_share;
    /// Takes the packets of an object.
    Decoder: reamertan_decoder_close, reamertan_decoder_copy;
    /// Takes the packets of a source block.
    BlockDecoder: reamertan_block_decoder_close, reamertan_block_decoder_copy;
}

/// New bytes, so many, which a call fills.
///
/// # Safety
///
/// Where the call answers 0, it has written each of them.
unsafe fn filled(length: usize, fill: impl FnOnce(*mut u8) -> u8) -> Result<Vec<u8>, Error> {
    let mut bytes = Vec::with_capacity(length);
    answered(fill(bytes.as_mut_ptr()), ())?;
    // SAFETY: as the caller says.
    unsafe { bytes.set_len(length) };
    Ok(bytes)
}

/// A coder of the library, which is freed where this is dropped.
pub struct Coder<K: Kind>(NonNull<K>);

// SAFETY: it is proved of the library's coders that they may cross threads in the order of a lock, of a thread's start or
// join, or of a sequentially consistent atomic, and of what its pointers share that several threads may use it at a time.
// Safe Rust may also hand one over by a release and an acquire, which order the two threads' calls as well. That these
// suffice isn't proved.
unsafe impl<K: Kind> Send for Coder<K> {}

// SAFETY: each call takes a coder by `&mut`, so that nothing can be done by a `&`.
unsafe impl<K: Kind> Sync for Coder<K> {}

impl<K: Kind> Coder<K> {
    /// What a call writes over a null pointer.
    fn opened(open: impl FnOnce(*mut *mut K) -> u8) -> Result<Coder<K>, Error> {
        meet_library();
        let mut at = null_mut();
        answered(open(&mut at), ())?;
        Ok(Coder(NonNull::new(at).expect("a coder that was opened")))
    }

    /// A further pointer to an encoder or a plan, which each thread uses by itself; a copy of a decoder.
    pub fn twin(&mut self) -> Result<Coder<K>, Error> {
        // SAFETY: the pointer is one that the library wrote. It is used by one call at a time, and closed when this is
        // dropped.
        Coder::opened(|twin| unsafe { K::TWIN(self.0.as_ptr(), twin) })
    }
}

impl<K: Kind> Drop for Coder<K> {
    fn drop(&mut self) {
        // SAFETY: as above.
        unsafe { K::CLOSE(&mut self.0.as_ptr()) }
    }
}

impl Coder<Encoder> {
    /// The encoder of an object.
    pub fn new(configuration: &Configuration, object: &[u8]) -> Result<Self, Error> {
        let (at, length) = (object.as_ptr(), object.len());
        // SAFETY: the declaration is the header's, and the pointer goes with its slice's length.
        Coder::opened(|coder| unsafe { reamertan_encoder_open(coder, configuration, at, length) })
    }

    /// Fills a buffer with packets of a block, whose encoding symbol ids go from one on. Each is a payload id of 4 bytes
    /// and a symbol.
    pub fn write(
        &mut self,
        block: u8,
        first: u32,
        count: u32,
        packets: &mut [u8],
    ) -> Result<(), Error> {
        let (at, length) = (packets.as_mut_ptr(), packets.len());
        // SAFETY: as above, and a coder is used by one call at a time.
        let number =
            unsafe { reamertan_encoder_write(self.0.as_ptr(), block, first, count, at, length) };
        answered(number, ())
    }
}

impl Coder<Plan> {
    /// The plan of blocks of so many symbols.
    pub fn new(symbols: u16) -> Result<Self, Error> {
        // SAFETY: as above.
        Coder::opened(|coder| unsafe { reamertan_plan_open(coder, symbols) })
    }

    /// The encoder of a block by this plan.
    pub fn block_encoder(
        &mut self,
        configuration: &Configuration,
        block: u8,
        bytes: &[u8],
    ) -> Result<Coder<BlockEncoder>, Error> {
        let (plan, at, length) = (self.0.as_ptr(), bytes.as_ptr(), bytes.len());
        // SAFETY: as above.
        Coder::opened(|coder| unsafe {
            reamertan_block_encoder_open(coder, plan, configuration, block, at, length)
        })
    }
}

impl Coder<BlockEncoder> {
    /// The same as an object's encoder does, of a block alone.
    pub fn write(&mut self, first: u32, count: u32, packets: &mut [u8]) -> Result<(), Error> {
        let (at, length) = (packets.as_mut_ptr(), packets.len());
        // SAFETY: as above.
        let number =
            unsafe { reamertan_block_encoder_write(self.0.as_ptr(), first, count, at, length) };
        answered(number, ())
    }
}

impl Coder<Decoder> {
    /// The decoder of an object, before any packet.
    pub fn new(configuration: &Configuration) -> Result<Self, Error> {
        // SAFETY: as above.
        Coder::opened(|coder| unsafe { reamertan_decoder_open(coder, configuration) })
    }

    /// Takes a packet, a payload id of 4 bytes and a symbol. Whether its block is complete by it nobody asks here.
    pub fn add_packet(&mut self, packet: &[u8]) -> Result<(), Error> {
        let (at, length, mut completes) = (packet.as_ptr(), packet.len(), false);
        // SAFETY: as above.
        let number =
            unsafe { reamertan_decoder_add_packet(self.0.as_ptr(), at, length, &mut completes) };
        answered(number, ())
    }

    /// Whether the packets that were taken determine the object.
    pub fn is_complete(&mut self) -> bool {
        // SAFETY: as above.
        unsafe { reamertan_decoder_is_complete(self.0.as_ptr()) }
    }

    /// How many packets more a block needs at least.
    pub fn missing(&mut self, block: u8) -> Result<u32, Error> {
        let mut packets = 0;
        // SAFETY: as above.
        let number = unsafe { reamertan_decoder_missing(self.0.as_ptr(), block, &mut packets) };
        answered(number, packets)
    }

    /// The object's bytes in a block, which are so many.
    pub fn block(&mut self, block: u8, length: usize) -> Result<Vec<u8>, Error> {
        // SAFETY: as above, and what answers 0 has filled the buffer.
        unsafe {
            filled(length, |at| {
                reamertan_decoder_write_block(self.0.as_ptr(), block, at, length)
            })
        }
    }

    /// The object, of so many bytes.
    pub fn object(&mut self, length: usize) -> Result<Vec<u8>, Error> {
        // SAFETY: as above.
        unsafe {
            filled(length, |at| {
                reamertan_decoder_write_object(self.0.as_ptr(), at, length)
            })
        }
    }
}

impl Coder<BlockDecoder> {
    /// The decoder of a block of so many bytes, before any packet.
    pub fn new(configuration: &Configuration, block: u8, length: u64) -> Result<Self, Error> {
        // SAFETY: as above.
        Coder::opened(|coder| unsafe {
            reamertan_block_decoder_open(coder, configuration, block, length)
        })
    }

    /// Takes packets that lie one behind another, up to the first that is refused.
    pub fn add_packets(&mut self, packets: &[u8]) -> Result<(), Error> {
        let (at, length) = (packets.as_ptr(), packets.len());
        // SAFETY: as above.
        let number = unsafe { reamertan_block_decoder_add_packets(self.0.as_ptr(), at, length) };
        answered(number, ())
    }

    /// Whether the packets that were taken determine the block.
    pub fn is_complete(&mut self) -> bool {
        // SAFETY: as above.
        unsafe { reamertan_block_decoder_is_complete(self.0.as_ptr()) }
    }

    /// How many packets more the block needs at least.
    pub fn missing(&mut self) -> Result<u32, Error> {
        let mut packets = 0;
        // SAFETY: as above.
        let number = unsafe { reamertan_block_decoder_missing(self.0.as_ptr(), &mut packets) };
        answered(number, packets)
    }

    /// The block, of so many bytes.
    pub fn block(&mut self, length: usize) -> Result<Vec<u8>, Error> {
        // SAFETY: as above.
        unsafe {
            filled(length, |at| {
                reamertan_block_decoder_write(self.0.as_ptr(), at, length)
            })
        }
    }
}
