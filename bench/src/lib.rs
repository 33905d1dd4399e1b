//! The hand-written side, and what it has in common with the library's. It is compiled by itself, as the library is: what the
//! tests and the benchmark have besides does not change its machine code.

pub mod call;
pub mod handwritten;
pub mod interface;
pub mod random;
pub mod record;
pub mod sizes;
