//! `narrow`: one table, payload or packet narrowed by itself, the answer told in a line of text.

use face::{Kind, Narrowed};

use crate::run::{Told, refused};

/// The kind by its name.
pub fn kind(name: &str) -> Result<Kind, String> {
    match name {
        "table" => Ok(Kind::Table),
        "payload" => Ok(Kind::Payload),
        "packet" => Ok(Kind::Packet),
        _ => Err(format!("{name} is no table, payload or packet")),
    }
}

/// The line that tells the answer, and the bytes if it is changed.
pub fn told(answer: Narrowed) -> Told {
    let (line, out) = match answer {
        Narrowed::Refused(number) => (refused(number), Vec::new()),
        Narrowed::Unchanged => ("unchanged".to_owned(), Vec::new()),
        Narrowed::Changed { out, stayed, went } => {
            let (stayed, went) = (listed(stayed), listed(went));
            let line = format!("changed {} stayed {stayed} went {went}", out.len());
            (line, out)
        }
    };
    Told {
        text: line + "\n",
        out,
    }
}

fn listed([captions, carousels, others]: [u32; 3]) -> String {
    format!("{captions},{carousels},{others}")
}

/// Bytes from hexadecimal digits. White space between them says nothing.
pub fn from_hex(text: &str) -> Result<Vec<u8>, String> {
    let digits: Vec<u8> = text
        .chars()
        .filter(|character| !character.is_whitespace())
        .map(|character| {
            let digit = character.to_digit(16);
            digit
                .map(|digit| digit as u8)
                .ok_or(format!("{character:?} is no hexadecimal digit"))
        })
        .collect::<Result<_, _>>()?;
    match digits.as_chunks::<2>() {
        (pairs, []) => Ok(pairs.iter().map(|[high, low]| high << 4 | low).collect()),
        _ => Err("a hexadecimal digit stands alone".to_owned()),
    }
}
