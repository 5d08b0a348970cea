//! Stand-in for the outside crate `isdb`: the four readers of it that 000 calls, under the names that 000
//! uses. Written from 01, "What is learned", and its readings alone.

mod fields;
pub mod mh;
pub mod mmttables;
