//! Tests of the filter through its public trait, one file for each section of 01 and for each request of 02.

mod build;
mod captions;
mod examples;
mod finding;
mod learning;
mod narrowing;
mod payload;
mod plain_ip;
mod refusals;
mod rules;
