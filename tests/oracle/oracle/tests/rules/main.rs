//! 01's examples, the readings of its open sentences (a test named r02_... is of reading 2), 02's requests, the
//! refusals and the formats, one small test each. All filters are asked alike (see `subject.rs`).

mod calls;
mod captions;
mod checksums;
mod commands;
mod examples;
mod format;
mod keeping;
mod learning;
mod messages;
mod named;
mod narrowing;
mod orders;
mod packets;
mod plain_ip;
mod programs;
mod refusals;
mod subject;
mod theorems;
