//! Which library this package is for.

/// Its version, which is this repository's.
pub const VERSION: &str = "0.1.0";
