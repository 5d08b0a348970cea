//! The replacements are made where they fit exactly once, and else named.

#[path = "../replacements.rs"]
mod replacements;

use replacements::{PARTS, REPLACEMENTS, apply};

#[test]
fn each_is_made_in_the_text_that_those_before_it_left() {
    let made = apply("one two", &[("a", "one", "two"), ("b", "two two", "three")]);
    assert_eq!(made, Ok("three".to_owned()));
}

#[test]
fn one_that_is_not_found_is_named() {
    let message = apply("one", &[("a", "one", "two"), ("b", "one", "")]).unwrap_err();
    assert!(
        message.contains("\"b\"") && message.contains("found 0 times"),
        "{message}"
    );
}

#[test]
fn one_that_is_found_twice_is_named() {
    let message = apply("one one", &[("a", "one", "two")]).unwrap_err();
    assert!(
        message.contains("\"a\"") && message.contains("found 2 times"),
        "{message}"
    );
}

#[test]
fn each_has_its_own_name() {
    for table in [REPLACEMENTS, PARTS] {
        let mut names: Vec<_> = table.iter().map(|(name, ..)| name).collect();
        names.sort();
        names.dedup();
        assert_eq!(names.len(), table.len());
    }
}
