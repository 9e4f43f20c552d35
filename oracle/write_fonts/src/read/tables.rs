//! The tables that the carried text reads.

pub mod hvar;
pub mod variations;
pub mod vvar;
