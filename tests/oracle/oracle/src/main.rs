//! The command `oracle`: picks the command that its first word names and connects it with standard input
//! and output. Ends with 1 where a comparison finds a difference or a recount a wrong packet, with 2 where the words can't be
//! read or the filter that they name can't be asked.

use std::io::{self, Read, Write};
use std::ops::Range;
use std::process::ExitCode;
use std::{env, fs};

use face::{Engine, Limits};
use oracle::arguments::Arguments;
use oracle::cases::Selection;
use oracle::compare::{self, Outcome};
use oracle::engine::{By, Oracle};
use oracle::run::Told;
use oracle::theorems::{self, Bounds};
use oracle::{answers, cases, checksums, narrow, programs, run};
use original::Original;
use plain::Plain;

const USAGE: &str = "usage: oracle COMMAND
  filter                      the filtered stream: flag byte, service and stream on standard input
  sums                        its line of sums
  input [--seed N]            an input of these two: seed 0 is the example, from 24 on other assets
                              are not wanted
  run [WISHES] [MODES] [--work W] [--total T] [--most M] [--maps N] [--room N] [--cuts A,B,C]
      [--by FILTER] [--out FILE]
                              a line for each call of the stream on standard input; W, T and M are
                              65536 and the output is W if not given, and what is left after the
                              cuts goes in chunks of W-P
  narrow table|payload|packet [WISHES] [MODES] [--id N] [--room N] [--hex] [--by FILTER]
      [--out FILE]
                              one narrowing of standard input
  cases --seeds A..B [--narrowing N] [--streams 0]
                              the seeds' cases, each with at most N narrowings and its stream, or none
  cases --seeds A..B --calls [MODES] [--narrowing N] [--streams 0] [--other on|off]
                              the seeds' cases with any of the four wishes: calls in the stream's
                              place, and narrowings with modes; with --other those that want other
                              assets alone, or those that do not
  cases --named               the named cases: what the port's program answers stores
  cases --orders              messages in fragments in all orders in which these can come, with a
                              fragment room that is just long enough, and a byte too short
  answers [--by FILTER]       the answers to the cases on standard input
  checksums CASES ANSWERS     recounts lengths and checksums of the plain IP packets that answers to
                              these cases have rewritten; both are files
  theorems --seeds A..B [--narrowing N] [--longest N] [--most N]
                              the seeds' cases with the oracle's answers, as theorems on the
                              definitions, then those of --calls --other off and --modes
                              plain-ip: of each sort at most N
                              (400), each of at most N bytes (2000)
  compare --seeds A..B        the original and the plain filter
  same --seeds A..B           the original at its own limits and the untouched one
WISHES
  --flags N --service N       bits 0 to 4: captions, carousels, EIT wanted, service named, other
                              assets not wanted; 0 if not given
  --profile captions [--service N]
                              the captions-only profile, of one service or of all: writes signalling
                              with its tables (which list captions alone), control and clock packets,
                              captions, and media that no list names; drops other assets, carousels
                              and EIT
MODES
  --modes plain-ip            tables in plain IPv4 and IPv6 packets are narrowed too; all modes are off
                              if not given
FILTER
  oracle                      the original where it can be asked, else plain; if not given
  original                    the original, which can't be asked without other assets or with a mode
  plain                       the second filter";

type Answer = Result<ExitCode, String>;

fn main() -> ExitCode {
    let mut words = env::args().skip(1);
    let command = words.next().unwrap_or_default();
    dispatch(&command, words).unwrap_or_else(|message| {
        eprintln!("oracle {command}: {message}");
        ExitCode::from(2)
    })
}

fn dispatch(command: &str, words: impl Iterator<Item = String>) -> Answer {
    let read = |names: &[&str], switches: &[&str]| Arguments::read(words, names, switches);
    match command {
        "filter" => read(&[], &[]).and_then(|_| program(programs::filter::<Oracle>)),
        "sums" => read(&[], &[]).and_then(|_| program(programs::sums::<Oracle>)),
        "input" => input_command(&read(&["seed"], &[])?),
        "run" => run_command(&read(RUN, &[])?),
        "narrow" => narrow_command(&read(NARROW, &["hex"])?),
        "cases" => cases_command(&read(CASES, &["named", "orders", "calls"])?),
        "answers" => answers_command(&read(&["by"], &[])?),
        "checksums" => checksums_command(&read(&[], &[])?),
        "theorems" => theorems_command(&read(THEOREMS, &[])?),
        "compare" => compare_command("compared", compare::compare, &read(&["seeds"], &[])?),
        "same" => compare_command("same", compare::same, &read(&["seeds"], &[])?),
        _ => Err(format!("no such command\n{USAGE}")),
    }
}

const RUN: &[&str] = &[
    "flags", "profile", "service", "modes", "work", "total", "most", "maps", "room", "cuts", "by",
    "out",
];
const NARROW: &[&str] = &[
    "flags", "profile", "service", "modes", "id", "room", "by", "out",
];
const CASES: &[&str] = &["seeds", "modes", "narrowing", "streams", "other"];
const THEOREMS: &[&str] = &["seeds", "narrowing", "longest", "most"];

fn program(
    program: fn(io::StdinLock<'static>, io::BufWriter<io::StdoutLock<'static>>) -> io::Result<()>,
) -> Answer {
    let output = io::BufWriter::new(io::stdout().lock());
    program(io::stdin().lock(), output).map_err(text)?;
    Ok(ExitCode::SUCCESS)
}

fn input_command(arguments: &Arguments) -> Answer {
    let input = programs::input(arguments.number("seed", 0)?);
    io::stdout().lock().write_all(&input).map_err(text)?;
    Ok(ExitCode::SUCCESS)
}

fn run_command(arguments: &Arguments) -> Answer {
    let work = arguments.number("work", 65_536)?;
    let limits = Limits {
        work,
        total: arguments.number("total", 65_536)?,
        most: arguments.number("most", 65_536)?,
        maps: arguments.number("maps", 32_768)?,
    };
    let room = arguments.number("room", work)?;
    let (by, options, modes) = (by(arguments)?, arguments.options()?, arguments.modes()?);
    by.must_know(&options, &modes)?;
    let run = match by {
        By::Original => run::run::<Original>,
        By::Plain => run::run::<Plain>,
        By::Oracle => run::run::<Oracle>,
    };
    let cuts = arguments.numbers("cuts")?;
    let told = run(limits, options, modes, room, &cuts, &input()?);
    tell(arguments, &told)
}

fn narrow_command(arguments: &Arguments) -> Answer {
    let [name] = arguments.plain()[..] else {
        return Err("name one of table, payload and packet".to_owned());
    };
    let mut input = input()?;
    if arguments.has("hex") {
        input = narrow::from_hex(&String::from_utf8_lossy(&input))?;
    }
    let (by, options, modes) = (by(arguments)?, arguments.options()?, arguments.modes()?);
    by.must_know(&options, &modes)?;
    let narrow = match by {
        By::Original => Original::narrow,
        By::Plain => Plain::narrow,
        By::Oracle => Oracle::narrow,
    };
    let answer = narrow(
        narrow::kind(name)?,
        options,
        modes,
        arguments.number("id", 0)?,
        &input,
        arguments.number("room", input.len())?,
    );
    tell(arguments, &narrow::told(answer))
}

fn cases_command(arguments: &Arguments) -> Answer {
    let mut output = io::stdout().lock();
    for (name, made) in [
        ("named", cases::named as fn() -> _),
        ("orders", cases::orders),
    ] {
        if arguments.has(name) {
            output.write_all(&made()).map_err(text)?;
            return Ok(ExitCode::SUCCESS);
        }
    }
    let selection = Selection {
        series: arguments.number("streams", 1)? > 0,
        narrowings: arguments.number("narrowing", usize::MAX)?,
    };
    let (calls, other) = (arguments.has("calls"), arguments.on_or_off("other")?);
    let modes = arguments.modes()?;
    if other.is_some() && !calls {
        return Err("--other is of --calls: all other cases want other assets".to_owned());
    }
    if !modes.all_off() && !calls {
        return Err("--modes is of --calls: all other cases are without modes".to_owned());
    }
    for seed in arguments.seeds()? {
        let bytes = if calls {
            cases::wished_of_seed(seed, selection, modes, other)
        } else {
            cases::of_seed(seed, selection)
        };
        output.write_all(&bytes).map_err(text)?;
    }
    Ok(ExitCode::SUCCESS)
}

fn answers_command(arguments: &Arguments) -> Answer {
    let (by, input) = (by(arguments)?, input()?);
    for (nth, case) in cases::Reader::new(&input).enumerate() {
        by.must_know(case.options(), case.modes())
            .map_err(|message| format!("case {nth}: {message}"))?;
    }
    let answers = match by {
        By::Original => answers::answers::<Original>,
        By::Plain => answers::answers::<Plain>,
        By::Oracle => answers::answers::<Oracle>,
    };
    io::stdout().write_all(&answers(&input)).map_err(text)?;
    Ok(ExitCode::SUCCESS)
}

fn checksums_command(arguments: &Arguments) -> Answer {
    let [cases, answers] = arguments.plain()[..] else {
        return Err("name a file of cases and a file of answers".to_owned());
    };
    let read = |path: &str| fs::read(path).map_err(|error| format!("{path}: {error}"));
    let recount = checksums::recount(&read(cases)?, &read(answers)?)?;
    if let Some(first) = &recount.first {
        println!("{first}");
    }
    println!(
        "checksums: {} plain IP packets rewritten, {} wrong",
        recount.verified, recount.wrong
    );
    let bad = recount.wrong > 0 || recount.verified == 0;
    Ok(ExitCode::from(u8::from(bad)))
}

fn theorems_command(arguments: &Arguments) -> Answer {
    let bounds = Bounds {
        narrowing: arguments.number("narrowing", usize::MAX)?,
        longest: arguments.number("longest", 2_000)?,
        most: arguments.number("most", 400)?,
    };
    let file = theorems::theorems(arguments.seeds()?, bounds);
    io::stdout().write_all(file.as_bytes()).map_err(text)?;
    Ok(ExitCode::SUCCESS)
}

fn compare_command(
    name: &str,
    compare: fn(Range<u64>) -> Outcome,
    arguments: &Arguments,
) -> Answer {
    let outcome = compare(arguments.seeds()?);
    if let Some(first) = &outcome.first {
        println!("{first}");
    }
    println!(
        "{name}: {} streams, {} calls, {} bytes, {} narrowings, {} differences",
        outcome.streams, outcome.calls, outcome.bytes, outcome.narrowings, outcome.differences
    );
    Ok(ExitCode::from(u8::from(outcome.first.is_some())))
}

/// `--by`: the filter that answers.
fn by(arguments: &Arguments) -> Result<By, String> {
    By::named(arguments.text("by"))
}

fn input() -> Result<Vec<u8>, String> {
    let mut bytes = Vec::new();
    io::stdin().read_to_end(&mut bytes).map_err(text)?;
    Ok(bytes)
}

/// The text to standard output, the bytes to `--out`.
fn tell(arguments: &Arguments, told: &Told) -> Answer {
    print!("{}", told.text);
    if let Some(path) = arguments.text("out") {
        fs::write(path, &told.out).map_err(|error| format!("{path}: {error}"))?;
    }
    Ok(ExitCode::SUCCESS)
}

fn text(error: io::Error) -> String {
    error.to_string()
}
