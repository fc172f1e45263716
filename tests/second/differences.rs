//! Which bytes of two index or volume files differ, as lines, written from document 02 (2026-06) alone.

use crate::par1::{self, Refusal};

/// "in layout order": the header's fields that may differ, and where each begins and ends.
const HEAD: [(&str, usize, usize); 9] = [
    ("version", 8, 12),
    ("program", 12, 16),
    ("control", 16, 32),
    ("set", 32, 48),
    ("number", 48, 56),
    ("files", 56, 64),
    ("list", 72, 80),
    ("start", 80, 88),
    ("data", 88, 96),
];

/// The fields of an entry; the name goes to its end.
const ENTRY: [(&str, usize, usize); 6] =
    [("length", 0, 8), ("status", 8, 16), ("size", 16, 24), ("md5", 24, 40), ("16k", 40, 56), ("name", 56, usize::MAX)];

/// The names of the fields that are not the same on both sides.
fn differing<'a>(fields: &'a [(&str, usize, usize)], one: &'a [u8], two: &'a [u8]) -> impl Iterator<Item = &'a str> {
    let part = |side: &'a [u8], from: usize, to: usize| &side[from..to.min(side.len())];
    fields.iter().filter(move |&&(_, from, to)| part(one, from, to) != part(two, from, to)).map(|field| field.0)
}

/// The entries of a list that was read, each by its own bytes.
fn entries(mut list: &[u8]) -> Vec<&[u8]> {
    let mut found = vec![];
    while let Ok((_, length)) = par1::entry(list) {
        found.push(&list[..length]);
        list = &list[length..];
    }
    found
}

/// "runs of data bytes, first and last place, from 0, joined where they touch"; "Data that only one side has differs".
pub fn runs(one: &[u8], two: &[u8]) -> Vec<(usize, usize)> {
    let mut runs: Vec<(usize, usize)> = vec![];
    for p in (0..one.len().max(two.len())).filter(|&p| one.get(p) != two.get(p)) {
        match runs.last_mut() {
            Some((_, last)) if *last + 1 == p => *last = p,
            _ => runs.push((p, p)),
        }
    }
    runs
}

/// Where a file that was read has its list and its data.
fn parts<'a>(file: &'a [u8], numbers: &[u64; 8]) -> (&'a [u8], &'a [u8]) {
    let start = numbers[5] as usize;
    (&file[96..start], &file[start..])
}

/// The lines of two files that were read; none where they have the same bytes.
fn lines(one: (&[u8], [u64; 8]), two: (&[u8], [u64; 8])) -> Vec<String> {
    let mut lines: Vec<String> = differing(&HEAD, one.0, two.0).map(|name| format!("head {name}")).collect();
    let ((list1, data1), (list2, data2)) = (parts(one.0, &one.1), parts(two.0, &two.1));
    let (entries1, entries2) = (entries(list1), entries(list2));
    for p in 0..entries1.len().max(entries2.len()) {
        match (entries1.get(p), entries2.get(p)) {
            (Some(a), Some(b)) => lines.extend(differing(&ENTRY, a, b).map(|name| format!("entry {} {name}", p + 1))),
            _ => lines.push(format!("entry {} all", p + 1)),
        }
    }
    lines.extend(runs(data1, data2).into_iter().map(|(a, b)| format!("data {a} {b}")));
    lines
}

/// The lines, each ended by byte 10. "Each refused file gives a line `refused S N`, side 1 before 2, and then nothing else is written".
pub fn compare(one: &[u8], two: &[u8]) -> Vec<u8> {
    let refused = |side: u32, refusal: Refusal| format!("refused {side} {}", refusal.number);
    let lines = match (par1::read(one), par1::read(two)) {
        (Ok(parts1), Ok(parts2)) => lines((one, parts1), (two, parts2)),
        (read1, read2) => [(1, read1), (2, read2)].into_iter().filter_map(|(side, read)| Some(refused(side, read.err()?))).collect(),
    };
    lines.into_iter().flat_map(|line| line.into_bytes().into_iter().chain([10])).collect()
}
