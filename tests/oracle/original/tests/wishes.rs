//! The original has no wish of other assets and no modes: asked without the ones or with the others, it says so instead of
//! answering as if they were wanted, or off.

use face::{Engine, Kind, Modes, Options};
use original::{OWN_LIMITS, Original, Parts, Untouched};

/// The captions-only profile.
fn unknown() -> Options {
    Options::captions_only(None)
}

/// No captions.
fn known() -> Options {
    Options::from_flags(6, 0)
}

#[test]
fn it_knows_every_option_with_other_assets_and_no_mode() {
    for flags in 0..32 {
        let options = Options::from_flags(flags, 0x0401);
        assert_eq!(Original::knows(&options, &Modes::OFF), flags < 16);
        assert!(!Original::knows(&options, &Modes::PLAIN_IP));
    }
}

#[test]
#[should_panic(expected = "can't be asked without them")]
fn it_does_not_start() {
    let _ = Original::start(OWN_LIMITS, unknown(), Modes::OFF);
}

#[test]
#[should_panic(expected = "can't be asked without them")]
fn it_does_not_narrow() {
    Original::narrow(Kind::Table, unknown(), Modes::OFF, 0, &[], 0);
}

#[test]
#[should_panic(expected = "can't be asked without them")]
fn nor_untouched() {
    Untouched::new(unknown());
}

#[test]
#[should_panic(expected = "can't be asked without them")]
fn nor_in_parts() {
    Parts::new(unknown());
}

#[test]
#[should_panic(expected = "can't be asked with one")]
fn it_does_not_start_with_a_mode() {
    let _ = Original::start(OWN_LIMITS, known(), Modes::PLAIN_IP);
}

#[test]
#[should_panic(expected = "can't be asked with one")]
fn it_does_not_narrow_with_a_mode() {
    Original::narrow(Kind::Table, known(), Modes::PLAIN_IP, 0, &[], 0);
}
