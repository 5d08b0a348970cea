//! The replacements that put 01's limits and counts into 000, as (name, needle, replacement), and those for the
//! bench. Each must fit exactly once in the text that those before it left. What they call stands in
//! `src/inside.rs`.

pub type Replacement = (&'static str, &'static str, &'static str);

pub const REPLACEMENTS: &[Replacement] = &[
    // The filter carries an `Inside` beside its own state.
    (
        "field",
        "held: Vec<u8>,",
        "held: Vec<u8>, inside: inside::Inside,",
    ),
    (
        "argument",
        "new(options: Options)",
        "new(options: Options, inside: inside::Inside)",
    ),
    ("initial", "held: Vec::new(),", "held: Vec::new(), inside,"),
    // T and M are set at the start. The 256 fragment identifiers are 000's own.
    ("M, constant", "const PIECES_MOST: usize = 4 << 20;", ""),
    ("M", "PIECES_MOST", "self.inside.limits.most"),
    ("T, constant", "const PIECES_TOTAL: usize = 16 << 20;", ""),
    (
        "T of a first",
        "PIECES_IDS || self.pieces_len() + body.len() > PIECES_TOTAL",
        "PIECES_IDS || self.pieces_len() + body.len() > self.inside.limits.total",
    ),
    (
        "T of a later one",
        "PIECES_TOTAL",
        "self.inside.limits.total",
    ),
    // P and the 64 map lists. Packages and assets need no limit: one byte counts them, a PLT replaces all
    // packages and an MPT its identifier's whole list, so neither passes 255.
    (
        "P",
        "!starts_packet(&held, at)",
        "!self.starts_packet(&held, at)",
    ),
    (
        "map lists",
        "self.maps.insert(pid, assets);",
        "if !self.has_place(pid) { return false; } self.maps.insert(pid, assets);",
    ),
    // What a call reports.
    (
        "skipped",
        "continue;",
        "self.inside.counts.skipped += 1; continue;",
    ),
    (
        "accepted and written",
        "self.packet(&held",
        "self.counted_packet(&held",
    ),
    (
        "rewritten",
        "out.extend_from_slice(&new);",
        "self.inside.counts.rewritten += 1; out.extend_from_slice(&new);",
    ),
    // Narrowing by itself: entries are counted, and a packet teaches nothing.
    (
        "entries",
        "=> self.mpt_without(table)",
        "=> self.counted_mpt_without(table)",
    ),
    (
        "alone",
        "if signalling {",
        "if signalling && !self.inside.alone {",
    ),
];

/// Those that part for the bench what 000 does at once: `packet` does not learn, and `observe` tells that the rules are
/// to be worked out where 000 goes on to do so. `src/parts.rs` calls them.
pub const PARTS: &[Replacement] = &[
    ("field", "held: Vec<u8>,", "held: Vec<u8>, changed: bool,"),
    (
        "initial",
        "held: Vec::new(),",
        "held: Vec::new(), changed: false,",
    ),
    ("learning", "if signalling {", "if false {"),
    ("rules", "self.decide();", "self.changed = true;"),
];

/// The text with all replacements made, or the name of the first that does not fit exactly once.
pub fn apply(text: &str, replacements: &[Replacement]) -> Result<String, String> {
    let mut text = text.to_owned();
    for (name, needle, by) in replacements {
        let found = text.matches(needle).count();
        if found != 1 {
            return Err(format!(
                "replacement \"{name}\" must fit 000 exactly once and was found {found} times"
            ));
        }
        text = text.replace(needle, by);
    }
    Ok(text)
}
