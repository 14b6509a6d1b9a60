//! Rows of a fetch list as text: what `film plan --text` prints, or four numbers a line.
use crate::failure::Failure;
use crate::files;
use crate::words::{printable, thousands};
use film_planner::{FetchList, Row};
use std::path::Path;

/// So many faults are told: of a file that is no list of rows every line is one.
const TOLD: usize = 5;
const WANTED: &str = "A row is `slot 77: chunk 17 layer 2, 6,000 bytes` or four numbers, slot chunk layer bytes.";

/// The numbers of a line, in either form.
fn numbers(line: &str) -> Option<Vec<&str>> {
    let words: Vec<&str> = line.split_whitespace().collect();
    match words[..] {
        [slot, chunk, layer, bytes] => Some(vec![slot, chunk, layer, bytes]),
        ["slot", slot, "chunk", chunk, "layer", layer, bytes, "byte" | "bytes"] => {
            Some(vec![slot.strip_suffix(':')?, chunk, layer.strip_suffix(',')?, bytes])
        }
        _ => None,
    }
}

fn row(line: &str) -> Result<Row, String> {
    let words = numbers(line).ok_or("this is no row")?;
    let number = |word: &str, what: &str, most: u64| {
        let digits = word.replace(',', "");
        let plain = !digits.is_empty() && digits.bytes().all(|b| b.is_ascii_digit());
        match digits.parse::<u64>() {
            Ok(n) if plain && n <= most => Ok(n),
            _ if plain => Err(format!("{what} {}: it is at most {}", printable(word), thousands(most))),
            _ => Err(format!("`{}` is no number", printable(word))),
        }
    };
    Ok(Row::new(
        number(words[0], "slot", u64::from(u16::MAX))? as u16,
        number(words[1], "chunk", u64::from(u16::MAX))? as u16,
        number(words[2], "layer", u64::from(u8::MAX))? as u8,
        number(words[3], "bytes", u64::from(u32::MAX))? as u32,
    ))
}

/// Rows as text, all faults in one go. From # to the end of a line is a comment.
pub fn read(data: &[u8], path: &Path) -> Result<FetchList, Failure> {
    let called = files::called(path);
    if data.len() > files::TEXT {
        return Err(Failure::bad(format!("{called}: rows above {} bytes", thousands(files::TEXT as u64))));
    }
    let text = match std::str::from_utf8(data) {
        Ok(text) if !text.contains('\0') => text,
        _ => return Err(Failure::bad(format!("{called}: this is neither a plan file, which begins with KP, nor rows as text"))),
    };
    let (mut list, mut faults, mut more) = (FetchList::new(), Vec::new(), 0);
    for (k, line) in text.lines().enumerate() {
        let statement = line.split('#').next().unwrap_or("").trim();
        if statement.is_empty() {
            continue;
        }
        match row(statement) {
            Ok(row) => list.push(row),
            Err(_) if faults.len() == TOLD => more += 1,
            Err(fault) => faults.push(format!("{called} line {}: {}\n  {fault}", k + 1, printable(statement))),
        }
    }
    if more > 0 {
        faults.push(format!("{called}: and {} faults more", thousands(more)));
    }
    match faults.is_empty() {
        true => Ok(list),
        false => Err(Failure::bad(faults.join("\n")).hint(WANTED)),
    }
}
