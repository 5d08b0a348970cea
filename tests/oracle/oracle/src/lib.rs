//! The oracle's commands, one module each, and the format of the cases that are handed to the port.
//! `main.rs` picks the command.

pub mod answers;
pub mod arguments;
pub mod builders;
pub mod cases;
pub mod checksums;
pub mod compare;
pub mod datagrams;
pub mod engine;
pub mod named;
pub mod narrow;
pub mod orders;
pub mod programs;
pub mod run;
pub mod theorems;
