//! Keys, values and parameters.

/// Bytes that are owned.
pub type Blob = Vec<u8>;
