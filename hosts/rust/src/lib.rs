//! The host's library: an engine written from the rules alone, a slow check of it, and traces to run both on.
pub mod certificate;
pub mod clock;
pub mod damage;
pub mod event;
pub mod generate;
pub mod monitor;
pub mod random;
pub mod reader;
pub mod slow;
