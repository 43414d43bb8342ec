//! The outside checks of Checkraven: the desk written a second time in plain
//! Rust, a maker of books and sheets, and the comparison of both desks.

pub mod compare;
pub mod demand3;
pub mod make;
pub mod one_step;
pub mod plain;
pub mod print;
pub mod rfc4180;
pub mod table;
pub mod which_round;
