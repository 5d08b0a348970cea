//! 01, "Keep, drop, ready": what is written of a stream that is known.

use face::Options;

use crate::subject::{Run, Subject, each};
use oracle::builders::*;

/// Services 0401 and 0402 with their MPTs on f001 and f002. Both have video at 5, and each a caption and a
/// carousel of its own.
fn broadcast(filter: &Subject, options: Options) -> Run {
    let mut run = filter.started(options);
    let packages = [service_at(0x0401, 0xf001), service_at(0x0402, 0xf002)];
    run.send(&tables(0, &[plt(&packages)]));
    run.send(&tables(
        0xf001,
        &[mpt(&[video(5), caption(11), carousel(12)])],
    ));
    run.send(&tables(
        0xf002,
        &[mpt(&[video(5), caption(21), carousel(22)])],
    ));
    run
}

/// Which of these identifiers are written.
fn written(run: &mut Run) -> Vec<u16> {
    let identifiers = [0, 5, 11, 12, 21, 22, 99, 0xf001, 0xf002];
    identifiers
        .into_iter()
        .filter(|&at| run.passes(&media(at)))
        .collect()
}

#[test]
fn what_is_not_wanted_is_dropped() {
    each(|filter| {
        let mut run = broadcast(filter, NO_CAPTIONS);
        assert_eq!(written(&mut run), [0, 5, 12, 22, 99, 0xf001, 0xf002]);
        assert_eq!(run.dropped(), 2);
        let mut run = broadcast(filter, NO_CAROUSELS);
        assert_eq!(written(&mut run), [0, 5, 11, 21, 99, 0xf001, 0xf002]);
        assert_eq!(run.dropped(), 2);
    });
}

#[test]
fn what_is_not_ours_is_dropped_and_kept_beats_dropped() {
    each(|filter| {
        let mut run = broadcast(filter, only(0x0402));
        assert_eq!(written(&mut run), [0, 5, 21, 22, 99, 0xf002]);
        assert_eq!(run.dropped(), 3);
        let options = Options {
            caption: false,
            ..only(0x0401)
        };
        let mut run = broadcast(filter, options);
        assert_eq!(written(&mut run), [0, 5, 12, 99, 0xf001]);
        assert_eq!(run.dropped(), 4);
    });
}

#[test]
fn the_data_set_is_dropped_with_carousels_off_unless_kept() {
    each(|filter| {
        for (options, drops) in [(NO_CAROUSELS, true), (NO_CAPTIONS, false), (NO_EIT, false)] {
            let mut run = broadcast(filter, options);
            let before = run.dropped();
            for identifier in [99, 5, 0] {
                run.send(&signalling(identifier, &whole(&data())));
            }
            assert_eq!(run.dropped(), before + u32::from(drops));
            assert_eq!(run.passes(&media(99)), !drops);
            assert!(run.passes(&media(5)) && run.passes(&media(0)));
        }
    });
}

#[test]
fn all_mpts_are_needed_or_ours_alone() {
    let packages = [service_at(0x0401, 0xf001), service_at(0x0402, 0xf003)];
    each(|filter| {
        for (options, ready) in [
            (NO_CAPTIONS, false),
            (only(0x0401), true),
            (only(0x0402), false),
        ] {
            let mut run = broadcast(filter, options);
            run.send(&tables(0, &[plt(&packages)]));
            assert_eq!(run.passes(&media(99)), ready);
            run.send(&tables(0xf003, &[mpt(&[])]));
            assert!(run.passes(&media(99)));
        }
    });
}

#[test]
fn an_empty_plt_is_ready_unless_a_service_is_named() {
    each(|filter| {
        for (options, ready) in [(NO_CAPTIONS, true), (only(0x0401), false)] {
            let mut run = filter.started(options);
            assert!(!run.passes(&media(99)));
            run.send(&tables(0, &[plt(&[])]));
            assert_eq!(run.passes(&media(99)), ready);
        }
    });
}

#[test]
fn a_plt_counts_on_identifier_0_only_and_signalling_is_always_ready() {
    each(|filter| {
        let mut run = filter.started(NO_CAPTIONS);
        assert!(run.passes(&tables(1, &[plt(&[])])));
        assert!(!run.passes(&media(99)));
    });
}
