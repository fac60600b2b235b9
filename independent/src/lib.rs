//! A permissions-policy engine written from the papers alone (document 01 and
//! requests of 02), in plain Rust.
//!
//! Texts are read once, when a document is loaded; a question only looks at
//! what was settled then.

pub mod allowlist;
pub mod attributes;
pub mod expressions;
pub mod features;
pub mod fields;
pub mod header;
pub mod limits;
pub mod origins;
pub mod refusal;
pub mod replay;
pub mod table;
pub mod tidy;

pub mod compare;
