//! The replay of a log of arrivals, written from document 02 (2026-11, 2026-13) alone.

use crate::field::Code;
use crate::inventory::{Change, Inventory};
use crate::md5sum::lines;

const LOG_LIMIT: usize = 65_536;

/// "decimal without leading zeros". Of "a number too large to hold" the greatest of 64 bits stands, which is out of every range as it is.
fn number(word: &[u8]) -> Option<u64> {
    let decimal = !word.is_empty() && word.iter().all(u8::is_ascii_digit) && (word.len() == 1 || word[0] != b'0');
    decimal.then(|| word.iter().fold(0u64, |value, digit| value.saturating_mul(10).saturating_add((digit - b'0') as u64)))
}

/// "a first line with the number of files and their sizes": 28 for another shape, then 10 and 1 as opening gives them. "the replay keeps the old one" of
/// the codes.
fn opened(line: &[u8]) -> Result<Inventory, u32> {
    let numbers: Option<Vec<u64>> = line.split(|&b| b == b' ').map(number).collect();
    let numbers = numbers.ok_or(28u32)?;
    Inventory::open(Code::Powers, numbers[0], &numbers[1..])
}

/// ""F 7" and "V 4" for noted, "f 7" and "v 4" for withdrawn"
pub fn change(letter: u8) -> Option<Change> {
    match letter {
        b'F' => Some(Change::AddFile),
        b'V' => Some(Change::AddVolume(Code::Powers.number())),
        b'f' => Some(Change::RemoveFile),
        b'v' => Some(Change::RemoveVolume),
        _ => None,
    }
}

/// What changes, and the number.
fn event(line: &[u8]) -> Option<(Change, u64)> {
    Some((change(*line.first()?)?, number(line[1..].strip_prefix(b" ")?)?))
}

fn refused(number: u32) -> String {
    format!("refused {number}\n")
}

/// "the file numbers that are rebuildable now, ascending, or `none`", "single spaces"
fn files(inventory: &Inventory) -> String {
    let numbers: Vec<String> = inventory.recoverable().iter().map(usize::to_string).collect();
    if numbers.is_empty() { "none\n".into() } else { numbers.join(" ") + "\n" }
}

/// "28 for a line of another shape, the first (or none) or an unended last one included, which ends the replay"
pub fn replay(log: &[u8]) -> Vec<u8> {
    if log.len() > LOG_LIMIT {
        return refused(1).into();
    }
    let mut lines = lines(log).into_iter();
    let first = lines.next().filter(|(_, ended)| *ended).map_or(Err(28), |(line, _)| opened(line));
    let mut inventory = match first {
        Ok(inventory) => inventory,
        Err(number) => return refused(number).into(),
    };
    let mut text = String::new();
    for (line, ended) in lines {
        let Some((change, number)) = event(line).filter(|_| ended) else {
            return (text + &refused(28)).into();
        };
        let refusal = inventory.change(change, number);
        text += &if refusal == 0 { files(&inventory) } else { refused(refusal) };
    }
    text.into()
}
