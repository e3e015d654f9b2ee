//! Coders of the library that are shared.

use crate::calls::{Coder, Kind, accepted};
use crate::error::Error;
use std::sync::atomic::{AtomicBool, Ordering};
use std::sync::{Mutex, MutexGuard, PoisonError};

/// A coder behind a lock: one call at a time uses it, and each takes it by `&mut`.
pub struct Locked<K: Kind>(Mutex<Coder<K>>);

impl<K: Kind> Locked<K> {
    pub fn new(coder: Coder<K>) -> Locked<K> {
        Locked(Mutex::new(coder))
    }

    // Nothing panics under the lock and leaves a coder half changed.
    pub fn lock(&self) -> MutexGuard<'_, Coder<K>> {
        self.0.lock().unwrap_or_else(PoisonError::into_inner)
    }

    pub fn get_mut(&mut self) -> &mut Coder<K> {
        self.0.get_mut().unwrap_or_else(PoisonError::into_inner)
    }
}

/// Holds a further pointer, or a copy. Panics where the library gets no memory.
impl<K: Kind> Clone for Locked<K> {
    fn clone(&self) -> Locked<K> {
        Locked::new(accepted(self.lock().twin()))
    }
}

/// An encoder or a plan that threads use side by side: each takes a further pointer, under a lock that it then leaves.
pub struct Shared<K: Kind> {
    coder: Locked<K>,
    // Whether two threads wanted the coder at a time.
    is_wanted: AtomicBool,
}

impl<K: Kind> Shared<K> {
    pub fn new(coder: Coder<K>) -> Shared<K> {
        Shared {
            coder: Locked::new(coder),
            is_wanted: AtomicBool::new(false),
        }
    }

    /// A further pointer. Panics where the library gets no memory.
    pub fn further(&self) -> Coder<K> {
        accepted(self.coder.lock().twin())
    }

    /// What a short call answers. While one thread alone calls, it does so by the coder itself, which takes less
    /// time. A second one waits for it once.
    pub fn call<T>(
        &self,
        short: impl FnOnce(&mut Coder<K>) -> Result<T, Error>,
    ) -> Result<T, Error> {
        if !self.is_wanted.load(Ordering::Relaxed) {
            if let Ok(mut coder) = self.coder.0.try_lock() {
                return short(&mut coder);
            }
            self.is_wanted.store(true, Ordering::Relaxed);
        }
        short(&mut self.further())
    }
}

/// Holds a further pointer of its own.
impl<K: Kind> Clone for Shared<K> {
    fn clone(&self) -> Shared<K> {
        Shared::new(self.further())
    }
}
