//! mul_add at many lengths, alignments and weights, with guards; and whole sets of files, some empty, by both codes, in any order and in two shares.

use crate::field::{self, Code, CODES};
use crate::{calls, rounds, small, Counts, Random};

/// One call on slices at these distances from the start of an allocation.
fn one(counts: &mut Counts, random: &mut Random, weight: u8, fragment: (usize, usize), buffer: (usize, usize)) {
    let bytes = random.bytes(fragment.0 + fragment.1);
    let fragment_bytes = &bytes[fragment.0..];
    let before = random.bytes(buffer.0 + buffer.1 + 40);
    let inside = buffer.0..buffer.0 + buffer.1;
    let mut want = before.clone();
    want[inside.clone()].copy_from_slice(&field::mul_add(weight, fragment_bytes, &before[inside.clone()]));
    let mut got = before;
    calls::mul_add(weight, fragment_bytes, &mut got[inside]);
    counts.same(|| format!("weight {weight}, fragment {fragment:?}, buffer {buffer:?}"), got, want);
}

fn lengths(counts: &mut Counts, random: &mut Random) {
    for n in 0..=300 {
        for at in 0..rounds(64) {
            one(counts, random, (n * 64 + at) as u8, (at % 8 + at / 16, n), (at % 16, n));
        }
    }
    for n in 0..=80 {
        for m in 0..rounds(81) {
            let (weight, a, b) = (random.below(256) as u8, random.below(16), random.below(16));
            one(counts, random, weight, (a, n), (b, m));
        }
    }
    for n in [4095, 65_536, 65_543, 1_048_576].into_iter().take(if small() { 1 } else { 4 }) {
        for at in 0..4 {
            let weight = random.below(256) as u8;
            one(counts, random, weight, (at, n), (3 * at, n + at));
        }
    }
}

/// The data of volume v, made by mul_add of the files in this order.
fn volume(code: Code, files: &[Vec<u8>], v: u64, order: &[usize]) -> Vec<u8> {
    let mut buffer = vec![0; files.iter().map(Vec::len).max().unwrap_or(0)];
    for &f in order {
        let (_, weight) = calls::coefficient(code.number(), f as u64, v, &[0]);
        calls::mul_add(weight[0], &files[f - 1], &mut buffer);
    }
    buffer
}

fn shuffled(n: usize, random: &mut Random) -> Vec<usize> {
    let mut order: Vec<usize> = (1..=n).collect();
    for i in (1..n).rev() {
        order.swap(i, random.below(i + 1));
    }
    order
}

fn sets(counts: &mut Counts, random: &mut Random) {
    for round in 0..rounds(400) {
        let n = 1 + random.below(if round % 20 == 0 { 254 } else { 12 });
        let mut files = vec![];
        for _ in 0..n {
            let len = if random.below(4) == 0 { 0 } else { random.below(200) };
            files.push(random.bytes(len));
        }
        let v = 1 + random.below(255 - n) as u64;
        let order = shuffled(n, random);
        for code in CODES {
            let whole = field::parity(code, &files, v);
            counts.same(|| format!("{code:?} volume {v} of {n} files"), volume(code, &files, v, &order), whole.clone());
            let (first, second) = order.split_at(random.below(n + 1));
            let mut sum = volume(code, &files, v, first);
            calls::mul_add(1, &volume(code, &files, v, second), &mut sum);
            counts.same(|| format!("{code:?} volume {v} of {n} files in two shares"), sum, whole);
        }
    }
}

pub fn run(counts: &mut Counts, random: &mut Random) {
    lengths(counts, random);
    sets(counts, random);
}
