//! Numbers for tests.

pub mod random;
