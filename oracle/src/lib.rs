//! rico's answers in the terms of document 01.

pub mod depth;
pub mod flatten;
pub mod judge;
pub mod tokens;
