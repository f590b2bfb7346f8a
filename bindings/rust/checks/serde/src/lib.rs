//! The examples of the package's documentation that need these crates, which run here.
#![doc = include_str!("../../../src/clap.md")]
#![doc = include_str!("../../../src/serde_fields.md")]
