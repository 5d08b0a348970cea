//! `theorems`: cases and the oracle's answers to them as a file of antt, the language of the definitions
//! in the crate `meaning`. A theorem says that the definitions compute the answer; computing is its proof.

use std::iter;
use std::ops::Range;

use face::{Kind, Modes};

use crate::answers::{narrowing_numbers, stream_numbers};
use crate::cases::{Calls, Case, Narrowing, Stream};
use crate::engine::Oracle;

/// Which of the seeds' cases become theorems.
#[derive(Debug, Clone, Copy)]
pub struct Bounds {
    /// The most narrowings of a seed.
    pub narrowing: usize,
    /// The most bytes of a stream or of a narrowing's input.
    pub longest: usize,
    /// The most theorems of each sort of cases.
    pub most: usize,
}

/// The whole file: what an answer is by the definitions, then a theorem for each case of the seeds, for each of their
/// cases without other assets, and for each of those with plain IP.
pub fn theorems(seeds: Range<u64>, bounds: Bounds) -> String {
    let sort = |of_seed: fn(u64, Bounds) -> Vec<String>| {
        let theorems = seeds.clone().flat_map(move |seed| of_seed(seed, bounds));
        theorems.take(bounds.most)
    };
    let theorems = [of_seed, wished_of_seed, plain_ip_of_seed].map(sort);
    let theorems = theorems.into_iter().flatten();
    let parts = iter::once(DEFINITIONS.to_owned()).chain(theorems);
    parts.collect::<Vec<_>>().join("\n")
}

fn of_seed(seed: u64, bounds: Bounds) -> Vec<String> {
    let (made, inputs) = (maker::case(seed), maker::inputs(seed));
    let stream = Case::Stream(Stream::from(&made));
    let narrowings = inputs.iter().take(bounds.narrowing);
    let narrowings = narrowings.map(|input| Case::Narrowing(Narrowing::from(input)));
    let cases = iter::once(stream).chain(narrowings);
    of_cases(&format!("seed-{seed}"), cases, bounds)
}

/// Those of a seed's calls and narrowings with modes that are without other assets.
fn wished_of_seed(seed: u64, bounds: Bounds) -> Vec<String> {
    let (made, inputs) = (maker::calls(seed), maker::wished_inputs(seed));
    let calls = Some(&made).filter(|made| !made.options.other);
    let calls = calls.map(|made| Case::Calls(Calls::from(made)));
    let inputs = inputs.iter().filter(|input| !input.options.other);
    let narrowings = inputs.take(bounds.narrowing);
    let narrowings = narrowings.map(|input| Case::Narrowing(Narrowing::with_modes(input)));
    let cases = calls.into_iter().chain(narrowings);
    of_cases(&format!("wished-seed-{seed}"), cases, bounds)
}

/// A seed's calls and narrowings with plain IP.
fn plain_ip_of_seed(seed: u64, bounds: Bounds) -> Vec<String> {
    let (made, inputs) = (maker::plain_ip_calls(seed), maker::plain_ip_inputs(seed));
    let narrowings = inputs.iter().take(bounds.narrowing);
    let narrowings = narrowings.map(|input| Case::Narrowing(Narrowing::with_modes(input)));
    let cases = iter::once(Case::Calls(Calls::from(&made))).chain(narrowings);
    of_cases(&format!("plain-ip-seed-{seed}"), cases, bounds)
}

/// The theorems of a seed's cases, which are counted as `cases` writes them: those that are short enough.
fn of_cases<'a>(seed: &str, cases: impl Iterator<Item = Case<'a>>, bounds: Bounds) -> Vec<String> {
    cases
        .enumerate()
        .filter(|(_, case)| length(case) <= bounds.longest)
        .filter_map(|(nth, case)| theorem(&format!("{seed}-case-{nth}"), &case))
        .collect()
}

fn length(case: &Case) -> usize {
    match case {
        Case::Stream(stream) => stream.chunks.iter().map(|chunk| chunk.len()).sum(),
        Case::Calls(calls) => calls.pushes().map(|(_, chunk)| chunk.len()).sum(),
        Case::Narrowing(narrowing) => narrowing.input.len(),
    }
}

/// The theorem of this name on a case. There is none on calls whose outputs have different lengths, since the
/// definition of a stream has one for all.
pub fn theorem(name: &str, case: &Case) -> Option<String> {
    let Statement {
        definition,
        arguments,
        answer,
    } = match case {
        Case::Stream(stream) => of_stream(stream, Modes::OFF),
        Case::Calls(calls) => of_stream(&as_stream(calls)?, calls.modes),
        Case::Narrowing(narrowing) => of_narrowing(narrowing),
    };
    let answer = list(answer);
    Some(format!(
        "-- {name}: {definition}, {} bytes\n\
         {name} : {definition} {arguments} ≡ {answer}\n\
         unfolding {definition}\n\
         {name} = refl\n",
        length(case)
    ))
}

/// The pushes of calls as a stream, if their outputs are of one length. To ask for the dropped identifiers changes
/// nothing, and their number is in no theorem.
fn as_stream<'a>(calls: &Calls<'a>) -> Option<Stream<'a>> {
    let room = calls.pushes().next().map_or(0, |(room, _)| room);
    let stream = Stream {
        limits: calls.limits,
        options: calls.options,
        room,
        chunks: calls.pushes().map(|(_, chunk)| chunk).collect(),
        cut: calls.cut,
    };
    calls
        .pushes()
        .all(|(other, _)| other == room)
        .then_some(stream)
}

/// The definition that a case asks, what it hands to it, and the answer.
struct Statement {
    definition: &'static str,
    arguments: String,
    answer: Vec<u32>,
}

fn of_stream(case: &Stream, modes: Modes) -> Statement {
    let limits = case.limits;
    let chunks = case
        .chunks
        .iter()
        .map(|chunk| format!("({})", list(*chunk)));
    let arguments = format!(
        "{} {} {} {} {} {} {} {} ({})",
        case.options.flags(),
        case.options.service.unwrap_or(0),
        modes.bits(),
        limits.work,
        limits.total,
        limits.most,
        limits.maps,
        case.room,
        list(chunks)
    );
    Statement {
        definition: "stream",
        arguments,
        answer: stream_numbers::<Oracle>(case, modes),
    }
}

fn of_narrowing(case: &Narrowing) -> Statement {
    // The identifier is read for a payload alone, the modes for a packet alone.
    let (definition, third) = match case.kind {
        Kind::Table => ("table", String::new()),
        Kind::Payload => ("payload", format!("{} ", case.identifier)),
        Kind::Packet => ("packet", format!("{} ", case.modes.bits())),
    };
    let arguments = format!(
        "{} {} {third}{} ({})",
        case.options.flags(),
        case.options.service.unwrap_or(0),
        case.room,
        list(case.input)
    );
    Statement {
        definition,
        arguments,
        answer: narrowing_numbers::<Oracle>(case),
    }
}

fn list<T: ToString>(members: impl IntoIterator<Item = T>) -> String {
    let members = members.into_iter().map(|member| member.to_string());
    members
        .chain(iter::once("[]".to_owned()))
        .collect::<Vec<_>>()
        .join(" ∷ ")
}

/// The answers by the definitions, as `answers::numbers` tells those of a filter.
const DEFINITIONS: &str = "\
-- The oracle's answers, each a theorem that holds by computing the definitions.
use Prim.Native.Nat.{ℕ, zero, suc, ◌%◌}
use mathlib.Core.Path.{◌≡◌, refl}
use mathlib.Core.List.{List, [], ◌∷◌, ◌++◌, flatten}
use mathlib.Core.Option.{Option, none, some}
use lib.ListN.{length, replicate}
use lib.Dec.{eqb}
use Rattle.meaning.specs.Bytes.{Bytes}
use Rattle.meaning.specs.Narrow.{Change, change_table, change_payload, change_packet, narrow_refusal}
use Rattle.meaning.specs.Record.{State}
use Rattle.meaning.specs.Start.{start_refusal, fresh}
use Rattle.meaning.specs.Push.{Outcome, push}
use Rattle.meaning.specs.Series.{call_refusal}
use Rattle.meaning.specs.Programs.{options_of}
use Rattle.meaning.specs.declared.Limits.{Limits}
use Rattle.meaning.specs.declared.Options.{Options}
use Rattle.meaning.specs.declared.Modes.{Modes}

-- Of their bits.
abbrev modes_of : ℕ → Modes
modes_of n = record { plain_ip = eqb (n % 2) 1 }

-- ---- narrowing: refusal, changed, length, three that stayed, three that went, the bytes

-- Refused, or unchanged with 0.
abbrev without : ℕ → List ℕ
without refusal = refusal ∷ 0 ∷ 0 ∷ 0 ∷ 0 ∷ 0 ∷ 0 ∷ 0 ∷ 0 ∷ []

abbrev change_numbers : Option Change → List ℕ
change_numbers none = without 0
change_numbers (some c) = 0 ∷ 1 ∷ length c.out ∷ (c.stays ++ (c.goes ++ c.out))

-- With the refusal, 0 for none.
abbrev narrowed : ℕ → Option Change → List ℕ
narrowed zero c = change_numbers c
narrowed (suc n) c = without (suc n)

-- Of flags, service, the output's length and the input.
unfoldable table : ℕ → ℕ → ℕ → Bytes → List ℕ
unfolding narrow_refusal change_table options_of
table flags service out_length s = narrowed (narrow_refusal (length s) out_length) (change_table (options_of flags service) s)

-- With the identifier as the third.
unfoldable payload : ℕ → ℕ → ℕ → ℕ → Bytes → List ℕ
unfolding narrow_refusal change_payload options_of
payload flags service p out_length s = narrowed (narrow_refusal (length s) out_length) (change_payload (options_of flags service) p s)

-- With the modes as the third.
unfoldable packet : ℕ → ℕ → ℕ → ℕ → Bytes → List ℕ
unfolding narrow_refusal change_packet options_of
packet flags service modes out_length s = narrowed (narrow_refusal (length s) out_length) (change_packet (modes_of modes) (options_of flags service) s)

-- ---- a stream: the start's refusal, then each call's refusal, bytes, accepted, written, rewritten, skipped, held, lost and its bytes

abbrev call_numbers : Outcome → List ℕ
call_numbers p =
    0 ∷ p.counts.bytes ∷ p.counts.accepted ∷ p.counts.written ∷ p.counts.rewritten ∷ p.counts.skipped
    ∷ length p.state.held ∷ p.counts.lost ∷ flatten p.out

-- What is held stays.
abbrev refused_call : ℕ → State → List ℕ
refused_call refusal st = refusal ∷ 0 ∷ 0 ∷ 0 ∷ 0 ∷ 0 ∷ length st.held ∷ 0 ∷ []

-- A call with its refusal, 0 for none, and the calls after it: a refused one leaves the state as it was.
abbrev call_on : ℕ → State → Outcome → (State → List ℕ) → List ℕ
call_on zero st p more = call_numbers p ++ more p.state
call_on (suc n) st p more = refused_call (suc n) st ++ more st

-- One length of the output for all calls.
unfoldable calls : Limits → Modes → Options → ℕ → State → List Bytes → List ℕ
unfolding call_refusal push flatten
calls L M o out_length st [] = []
calls L M o out_length st (chunk ∷ chunks) =
    call_on (call_refusal L st (chunk, out_length)) st (push L M o st chunk) (λ after. calls L M o out_length after chunks)

-- After a refused start nothing follows.
abbrev start_on : ℕ → List ℕ → List ℕ
start_on zero more = 0 ∷ more
start_on (suc n) more = suc n ∷ []

-- Of flags, service, modes, W, T, M, the lengths of map room and output, and the chunks.
unfoldable stream : ℕ → ℕ → ℕ → ℕ → ℕ → ℕ → ℕ → ℕ → List Bytes → List ℕ
unfolding start_refusal calls options_of fresh
stream flags service modes W T M map_length out_length chunks =
    start_on (start_refusal W T M map_length (options_of flags service))
    (calls (record { work = W; total = T; most = M }) (modes_of modes) (options_of flags service) out_length (fresh (replicate map_length 0)) chunks)

-- ---- the cases
";
