//! Routers to compare the library with.
pub mod depth_first;
pub mod published;
#[cfg(test)]
pub mod sample;
pub mod words;
