// STAND-IN for rico's ast/mod.rs, which is not among its given files.
mod definitions;
mod types;

pub use definitions::*;
pub use types::*;
