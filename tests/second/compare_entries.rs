//! The first entry of a list: lists walked to their end, cut at each place, damaged at each byte, with fields of any 64-bit number; random
//! bytes; rooms round the 24 bytes that it takes.

use crate::compare_par1::list;
use crate::{calls, expected, par1, rounds, Counts, Random};

fn entry(counts: &mut Counts, what: &str, list: &[u8], room: usize) {
    let room = vec![3; room];
    counts.same(|| format!("the entry of {what}, {} bytes", list.len()), calls::entry(list, &room), expected::entry(list, &room));
}

/// A walk as a caller makes it, by the lengths that come back: it ends where the list does, after each of its entries.
fn walk(counts: &mut Counts, whole: &[u8]) {
    let (mut at, mut entries) = (0, 0);
    loop {
        let (number, numbers) = calls::entry(&whole[at..], &[0; 24]);
        let length = u64::from_le_bytes(numbers[..8].try_into().unwrap()) as usize;
        if number != 0 || length == 0 {
            break;
        }
        at += length;
        entries += 1;
    }
    let want = par1::entries(whole).ok().map(|es| (whole.len(), es.len()));
    counts.same(|| format!("a walk over {} bytes", whole.len()), Some((at, entries)), want);
}

fn damaged(counts: &mut Counts, random: &mut Random, whole: &[u8]) {
    for at in 0..whole.len().min(150) {
        let mut one = whole.to_vec();
        one[at] ^= 1 << random.below(8);
        entry(counts, "a list with one bit changed", &one, 24);
        entry(counts, "a list cut short", &whole[..at], 24);
    }
    if whole.len() < 24 {
        return;
    }
    let length = whole.len() as u64;
    for field in [0, 8, 16] {
        for number in [0, 1, 56, 57, 58, 59, 60, length - 1, length, length + 1, 16_777_216, 16_777_217, 1 << 32, u64::MAX - 1, u64::MAX] {
            let mut one = whole.to_vec();
            one[field..field + 8].copy_from_slice(&number.to_le_bytes());
            entry(counts, "a list with a field changed", &one, 24);
        }
    }
}

pub fn run(counts: &mut Counts, random: &mut Random) {
    for _ in 0..rounds(200) {
        let whole = list(random);
        for room in [0, 1, 23, 24, 25, 60] {
            entry(counts, "a whole list", &whole, room);
            entry(counts, "an empty list", &[], room);
        }
        walk(counts, &whole);
        damaged(counts, random, &whole);
        let n = random.below(200);
        entry(counts, "random bytes", &random.bytes(n), 24);
    }
}
