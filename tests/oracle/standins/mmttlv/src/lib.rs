//! Stand-in for the outside crate `mmttlv`: the one reader of it that 000 calls, under the names that 000
//! uses. Written from 01, "From packet to payload", alone.

pub mod mmtp;
