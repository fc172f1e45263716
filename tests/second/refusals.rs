//! The refusals of each call (documents 01 and 02), and which came back of each.

use crate::Counts;
use std::sync::atomic::{AtomicU64, Ordering::Relaxed};

/// The calls that answer a number, in the header's order; two of them also write lines `refused N`.
#[derive(Clone, Copy, Debug)]
pub enum Call {
    Md5,
    Inverse,
    Coefficient,
    Read,
    Entry,
    Check,
    WriteEntry,
    WriteVolume,
    Amend,
    HashPush,
    HashEnd,
    MulAddStart,
    MulAddPush,
    MulAddEnd,
    ReadStart,
    ReadPush,
    ReadEnd,
    Open,
    AddFile,
    RemoveFile,
    AddVolume,
    RemoveVolume,
    Quarantine,
    Release,
    Count,
    Query,
    Compare,
    CompareLine,
    Export,
    Import,
    Replay,
    ReplayLine,
    CatalogOpen,
    CatalogAdd,
    CatalogDrop,
    CatalogLoad,
}
use Call::*;

/// "Reading tests 1 to 9 in this order"; "Where 01 says 6, read these": 16 to 19.
const READING: &[u32] = &[1, 2, 3, 4, 5, 16, 17, 18, 19, 7, 8, 9];
const NONE: &[u32] = &[];

/// Whether a call refuses as reading does, and its own numbers. Adding to a catalog never answers 26, for 25 holds where it does.
const REFUSALS: [(Call, &[u32], &[u32]); 36] = [
    (Md5, NONE, &[14]),
    (Inverse, NONE, &[10, 14]),
    (Coefficient, NONE, &[10, 14]),
    (Read, READING, &[14]),
    (Entry, NONE, &[16, 17, 18, 14]),
    (Check, NONE, &[16, 17, 18, 15]),
    (WriteEntry, NONE, &[17, 18, 14]),
    (WriteVolume, NONE, &[10, 16, 17, 18, 7, 9, 1, 14]),
    (Amend, READING, &[10, 21, 14]),
    (HashPush, NONE, &[20]),
    (HashEnd, NONE, &[20, 14]),
    (MulAddStart, NONE, &[14]),
    (MulAddPush, NONE, &[20]),
    (MulAddEnd, NONE, &[20]),
    (ReadStart, NONE, &[14]),
    (ReadPush, NONE, &[20]),
    (ReadEnd, READING, &[20, 14]),
    (Open, NONE, &[10, 1, 14]),
    (AddFile, NONE, &[10, 11]),
    (RemoveFile, NONE, &[10, 11]),
    (AddVolume, NONE, &[10, 29, 27, 11]),
    (RemoveVolume, NONE, &[10, 11]),
    (Quarantine, NONE, &[10, 11]),
    (Release, NONE, &[10, 11]),
    (Count, NONE, &[10, 14]),
    (Query, NONE, &[10, 13, 12, 14]),
    (Compare, NONE, &[14]),
    (CompareLine, READING, NONE),
    (Export, READING, &[24, 14]),
    (Import, READING, &[22, 23, 14]),
    (Replay, NONE, &[14]),
    (ReplayLine, NONE, &[1, 10, 11, 28]),
    (CatalogOpen, READING, &[26, 14]),
    (CatalogAdd, READING, &[30, 10, 25, 11, 14]),
    (CatalogDrop, NONE, &[30, 10, 11]),
    (CatalogLoad, NONE, &[30, 14]),
];

/// How often each number, 0 to 31, came back of each call.
static CAME_BACK: [[AtomicU64; 32]; REFUSALS.len()] = [const { [const { AtomicU64::new(0) }; 32] }; REFUSALS.len()];

/// Counts the number of an answer, which has a value beside it where it is of 64 bits.
pub fn counted<A: Copy + Into<u64>>(call: Call, answer: A) -> A {
    CAME_BACK[call as usize][(answer.into() % 32) as usize].fetch_add(1, Relaxed);
    answer
}

/// Prints what came back of each call: each of its refusals, and no other number. Only a run with `long` files writes a volume above the greatest length.
pub fn compare(counts: &mut Counts, long: bool) {
    for ((call, reading, own), times) in REFUSALS.iter().zip(&CAME_BACK) {
        let came: Vec<u32> = (1..32).filter(|&number| times[number as usize].load(Relaxed) > 0).collect();
        println!("{call:?}: accepted {} times, refused with {came:?}", times[0].load(Relaxed));
        let mut given: Vec<u32> = [*reading, *own].concat();
        given.sort();
        given.retain(|&number| long || !matches!((call, number), (WriteVolume, 1)));
        counts.same(|| format!("the refusals of {call:?}"), came, given);
    }
}
