//! Stand-in for model/mode.rs.

/// Named by `prepare_map` only.
pub struct ConvertError;
