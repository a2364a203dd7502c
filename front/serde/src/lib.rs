//! It has tests alone: of the feature `serde` of the crate front/rust.
