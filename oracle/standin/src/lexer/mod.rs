// STAND-IN for rico's lexer/mod.rs, which is not among its given files.
mod token;

pub use token::Token;
