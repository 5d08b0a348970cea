//! The lines that `run` and `narrow` tell, the words that all commands read, and a short comparison.

use std::io::Write;
use std::process::{Command, Output, Stdio};

use face::{Limits, Modes, Narrowed, Options};
use oracle::arguments::Arguments;
use oracle::cases::{Selection, wished_of_seed};
use oracle::{compare, narrow, run};
use original::Original;

use crate::subject::LIMITS;
use oracle::builders::*;
use oracle::datagrams::Heads;

fn told(limits: Limits, room: usize, cuts: &[usize]) -> String {
    let bytes = hex("7F FF 00 01 AA 00");
    run::run::<Original>(limits, NO_CAPTIONS, Modes::OFF, room, cuts, &bytes).text
}

#[test]
fn run_tells_each_call_and_what_is_dropped() {
    let whole = "bytes 0 accepted 0 written 0 rewritten 0 skipped 3 held 3 lost 0\n";
    assert_eq!(told(LIMITS, 6, &[]), format!("{whole}dropped 0\n"));
    let packet = "bytes 5 accepted 1 written 1 rewritten 0 skipped 0 held 0 lost 0\n";
    let rest = "bytes 0 accepted 0 written 0 rewritten 0 skipped 0 held 1 lost 0\n";
    assert_eq!(told(LIMITS, 6, &[5]), format!("{packet}{rest}dropped 0\n"));
    assert_eq!(
        told(LIMITS, 4, &[5]),
        format!("refused 6\n{rest}dropped 0\n")
    );
    assert_eq!(told(Limits { work: 0, ..LIMITS }, 6, &[]), "refused 1\n");
}

#[test]
fn narrow_tells_its_answer() {
    let (stayed, went) = ([1, 2, 3], [4, 5, 6]);
    let changed = Narrowed::Changed {
        out: vec![7, 8],
        stayed,
        went,
    };
    let line = "changed 2 stayed 1,2,3 went 4,5,6\n";
    assert_eq!(narrow::told(changed).text, line);
    assert_eq!(narrow::told(Narrowed::Unchanged).text, "unchanged\n");
    assert_eq!(narrow::told(Narrowed::Refused(5)).text, "refused 5\n");
}

#[test]
fn hexadecimal_digits_come_in_pairs() {
    assert_eq!(narrow::from_hex(" 0aF\n0 "), Ok(vec![0x0a, 0xf0]));
    assert!(narrow::from_hex("0aF").is_err());
    assert!(narrow::from_hex("0g").is_err());
}

#[test]
fn words_are_names_with_values_and_plain_ones() {
    let read = |words: &str| {
        let words = words.split(' ').map(str::to_owned);
        let names = ["flags", "service", "cuts", "seeds", "profile", "other"];
        Arguments::read(words, &names, &["hex"])
    };
    let words = read("table --flags 9 --hex --service 0x0401 --cuts 1,0x20 --seeds 3..7").unwrap();
    assert_eq!(words.plain(), ["table"]);
    let options = face::Options {
        carousel: false,
        eit: false,
        ..only(0x0401)
    };
    assert_eq!(words.options(), Ok(options));
    assert_eq!(words.numbers("cuts"), Ok(vec![1, 32]));
    assert_eq!((words.seeds(), words.has("hex")), (Ok(3..7), true));
    assert_eq!(words.number("room", 5), Ok(5));
    for wrong in ["--another 1", "--flags"] {
        assert!(read(wrong).is_err(), "{wrong}");
    }
    assert!(read("--flags 32").unwrap().options().is_err());
    assert!(read("--flags 256").unwrap().options().is_err());
    assert_eq!(
        read("--other on").unwrap().on_or_off("other"),
        Ok(Some(true))
    );
    assert_eq!(
        read("--other off").unwrap().on_or_off("other"),
        Ok(Some(false))
    );
    assert_eq!(words.on_or_off("other"), Ok(None));
    assert!(read("--other 1").unwrap().on_or_off("other").is_err());
}

#[test]
fn wishes_are_told_by_flags_or_by_a_profile() {
    let options = |words: &str| {
        let words = words.split(' ').map(str::to_owned);
        let names = ["flags", "service", "profile"];
        Arguments::read(words, &names, &[]).unwrap().options()
    };
    let captions = Options {
        service: None,
        caption: true,
        carousel: false,
        eit: false,
        other: false,
    };
    let of_one = Options {
        service: Some(0x0401),
        ..captions
    };
    assert_eq!(options("--profile captions"), Ok(captions));
    assert_eq!(options("--profile captions --service 0x0401"), Ok(of_one));
    assert_eq!(options("--flags 0x11"), Ok(captions));
    assert_eq!(options("--flags 0x19 --service 0x0401"), Ok(of_one));
    assert_eq!(options("--flags 7").map(|options| options.other), Ok(true));
    assert!(options("--profile video").is_err());
    assert!(options("--profile captions --flags 0x11").is_err());
}

/// What the command writes to a run of cases or a table, and how it ends.
pub fn command(words: &[&str], input: &[u8]) -> Output {
    let mut child = Command::new(env!("CARGO_BIN_EXE_oracle"))
        .args(words)
        .stdin(Stdio::piped())
        .stdout(Stdio::piped())
        .stderr(Stdio::piped())
        .spawn()
        .expect("the command starts");
    let mut stdin = child.stdin.take().expect("a pipe");
    // One that refuses its words does not read.
    let _ = stdin.write_all(input);
    drop(stdin);
    child.wait_with_output().expect("the command ends")
}

#[test]
fn the_original_is_not_asked_without_other_assets() {
    let wished = |other| {
        let selection = Selection {
            series: true,
            narrowings: 2,
        };
        (0..9).flat_map(move |seed| wished_of_seed(seed, selection, Modes::OFF, Some(other)))
    };
    let (on, off): (Vec<u8>, Vec<u8>) = (wished(true).collect(), wished(false).collect());
    let table = mpt(&[video(1), caption(2)]);
    for (words, input) in [
        (&["answers"][..], &[&on[..], &off].concat()),
        (&["narrow", "table", "--flags", "0x11"], &table),
        (&["run", "--profile", "captions"], &table),
    ] {
        let by = |filter| command(&[words, &["--by", filter]].concat(), input);
        let refused = by("original");
        assert_eq!(refused.status.code(), Some(2), "{words:?}");
        assert!(refused.stdout.is_empty(), "{words:?}");
        let message = String::from_utf8(refused.stderr).expect("text");
        assert!(message.contains("the original can't be asked"), "{message}");
        let (plain, usual) = (by("plain"), command(words, input));
        assert!(plain.status.success() && !plain.stdout.is_empty());
        assert_eq!(
            (&usual.stdout, &by("oracle").stdout),
            (&plain.stdout, &plain.stdout)
        );
    }
    let answers = |filter| command(&["answers", "--by", filter], &on);
    assert!(answers("original").status.success());
    assert_eq!(answers("original").stdout, answers("plain").stdout);
}

#[test]
fn words_that_do_not_go_together_are_refused() {
    for words in [
        &["cases", "--seeds", "0..1", "--other", "off"][..],
        &["cases", "--seeds", "0..1", "--calls", "--other", "none"],
        &["cases", "--seeds", "0..1", "--modes", "plain-ip"],
        &["cases", "--seeds", "0..1", "--calls", "--modes", "fast"],
        &["checksums", "one-file"],
        &["checksums", "no-such-file", "none-such"],
        &["answers", "--by", "nobody"],
        &["run", "--flags", "0x20"],
    ] {
        let output = command(words, &[]);
        assert_eq!(output.status.code(), Some(2), "{words:?}");
        assert!(output.stdout.is_empty() && !output.stderr.is_empty());
    }
}

#[test]
fn the_original_is_not_asked_with_a_mode_on() {
    let words = ["cases", "--seeds", "0..9", "--calls", "--modes", "plain-ip"];
    let cases = command(&words, &[]).stdout;
    let refused = command(&["answers", "--by", "original"], &cases);
    assert_eq!(refused.status.code(), Some(2));
    let message = String::from_utf8(refused.stderr).expect("text");
    assert!(message.contains("with a mode on"), "{message}");
    let plain = command(&["answers", "--by", "plain"], &cases).stdout;
    assert_eq!(plain, command(&["answers"], &cases).stdout);
}

#[test]
fn packets_are_narrowed_by_hand_in_the_mode() {
    let message = |entries: &[Vec<u8>]| mmtp(2, 1, &whole(&pa(&[mpt(entries)])));
    let packet = Heads::v4().around(&message(&[video(1), caption(2)]));
    let narrowed = |words: &[&str]| {
        let output = command(
            &[&["narrow", "packet", "--flags", "6"], words].concat(),
            &packet,
        );
        String::from_utf8(output.stdout).expect("text")
    };
    let length = packet.len() - 18;
    let line = format!("changed {length} stayed 0,0,1 went 1,0,0\n");
    assert_eq!(narrowed(&["--modes", "plain-ip"]), line);
    assert_eq!(narrowed(&[]), "unchanged\n");
}

/// A short run of what the commands `compare` and `same` do at length.
#[test]
fn the_filters_agree_on_the_first_seeds() {
    let outcome = compare::compare(0..100);
    assert_eq!(outcome.first, None);
    assert_eq!((outcome.streams, outcome.differences), (100, 0));
    assert!(outcome.calls > 100 && outcome.narrowings > 100);
    let outcome = compare::same(0..100);
    assert_eq!((outcome.streams, outcome.first), (100, None));
}
