//! The published Rust `PortGraph<u32, u32, u16>` behind the calls of document
//! 01. README.md says how it is used.

pub mod compare;
pub mod engine;
pub mod gen;
pub mod store;
pub mod text;
