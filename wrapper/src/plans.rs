//! Plans of source blocks, and those that are kept.

use crate::calls::{self, BYTES_AT_A_TIME, Coder, Configuration, accepted};
use crate::error::Error;
use crate::shared::Shared;
use std::collections::VecDeque;
use std::fmt;
use std::sync::{Mutex, MutexGuard, PoisonError};

/// What the encoders of source blocks of one size share: which of their symbols are to be added to which. To find
/// that is most of the work of an encoder of small symbols. Clones share it.
///
/// ```
/// let plan = raptorq::SourceBlockEncodingPlan::generate(10); // for all blocks of 10 symbols
/// let config = raptorq::ObjectTransmissionInformation::new(160, 16, 1, 1, 8);
/// let encoder = raptorq::SourceBlockEncoder::with_encoding_plan(0, &config, &[7; 160], &plan);
/// assert_eq!(encoder.source_packets().len(), 10);
/// ```
#[derive(Clone)]
pub struct SourceBlockEncodingPlan {
    source_symbol_count: u16,
    plan: Shared<calls::Plan>,
}

impl SourceBlockEncodingPlan {
    /// The plan for source blocks of so many symbols.
    ///
    /// # Panics
    ///
    /// Where [`SourceBlockEncodingPlan::try_generate`] refuses.
    #[must_use]
    #[track_caller]
    pub fn generate(symbol_count: u16) -> SourceBlockEncodingPlan {
        accepted(Self::try_generate(symbol_count))
    }

    /// The plan for source blocks of so many symbols. Refuses [`Error::BlockOverTable`] above 56403.
    pub fn try_generate(symbol_count: u16) -> Result<SourceBlockEncodingPlan, Error> {
        Ok(SourceBlockEncodingPlan {
            source_symbol_count: symbol_count,
            plan: Shared::new(Coder::<calls::Plan>::new(symbol_count)?),
        })
    }

    /// The encoder of a block by the plan. For a large one the thread takes a further pointer, so that no other waits
    /// for it.
    pub(crate) fn block_encoder(
        &self,
        configuration: &Configuration,
        block: u8,
        bytes: &[u8],
    ) -> Result<Coder<calls::BlockEncoder>, Error> {
        let open = |plan: &mut Coder<calls::Plan>| plan.block_encoder(configuration, block, bytes);
        if bytes.len() > BYTES_AT_A_TIME {
            return open(&mut self.plan.further());
        }
        self.plan.call(open)
    }
}

impl fmt::Debug for SourceBlockEncodingPlan {
    fn fmt(&self, f: &mut fmt::Formatter<'_>) -> fmt::Result {
        f.debug_struct("SourceBlockEncodingPlan")
            .field("source_symbol_count", &self.source_symbol_count)
            .finish_non_exhaustive()
    }
}

// A plan is made of the number alone.
impl PartialEq for SourceBlockEncodingPlan {
    fn eq(&self, other: &SourceBlockEncodingPlan) -> bool {
        self.source_symbol_count == other.source_symbol_count
    }
}

impl Eq for SourceBlockEncodingPlan {}

/// How many plans are kept, as in the crate.
const KEPT: usize = 64;

/// Plans by their numbers of symbols, the one that was kept first in front.
struct KeptPlans(VecDeque<(u16, Coder<calls::Plan>)>);

impl KeptPlans {
    fn lock() -> MutexGuard<'static, KeptPlans> {
        static PLANS: Mutex<KeptPlans> = Mutex::new(KeptPlans(VecDeque::new()));
        PLANS.lock().unwrap_or_else(PoisonError::into_inner)
    }

    // A further pointer to a plan that is kept.
    fn find(&mut self, symbols: u16) -> Option<Result<Coder<calls::Plan>, Error>> {
        let mut plans = self.0.iter_mut();
        let (_, plan) = plans.find(|(count, _)| *count == symbols)?;
        Some(plan.twin())
    }

    // Keeps a plan, and answers the one that makes room for it.
    fn keep(
        &mut self,
        symbols: u16,
        plan: Coder<calls::Plan>,
    ) -> Option<(u16, Coder<calls::Plan>)> {
        let full = self.0.len() >= KEPT;
        let oldest = full.then(|| self.0.pop_front()).flatten();
        self.0.push_back((symbols, plan));
        oldest
    }
}

/// A pointer to the plan for blocks of so many symbols: to one that is kept, or else to a new one, which is kept from
/// then on.
pub fn kept_plan(symbols: u16) -> Result<Coder<calls::Plan>, Error> {
    if let Some(plan) = KeptPlans::lock().find(symbols) {
        return plan;
    }
    let mut made = Coder::<calls::Plan>::new(symbols)?;
    let further = made.twin()?;
    let mut plans = KeptPlans::lock();
    // Another thread may have kept one since.
    if let Some(plan) = plans.find(symbols) {
        return plan;
    }
    let oldest = plans.keep(symbols, further);
    // It is freed when others may go on.
    drop(plans);
    drop(oldest);
    Ok(made)
}
