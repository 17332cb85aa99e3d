//! An independent second implementation of the project's scope paper and of the change requests that have landed,
//! written from the papers alone, and the comparison that runs every implementation on the same calls.

pub mod classic;
pub mod comparison;
pub mod control;
pub mod driver;
pub mod face;
pub mod field;
pub mod firmware;
pub mod implementation;
pub mod judge;
#[cfg(feature = "library")]
pub mod library;
pub mod low_energy;
pub mod outbox;
pub mod refusal;
pub mod reply;
pub mod report;
pub mod rng;
pub mod text;
