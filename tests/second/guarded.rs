//! Every call of include/par1.h on memory beside pages that cannot be touched (`pages`): the same calls with a page after each lent slice and with one
//! before it, in any order, on bytes that other calls gave, as they are or changed, and on any bytes, with rooms of any length. Each answer and each
//! room is held against the second program's, and where it has none, against the same call on ordinary memory.
//!
//! A round is what a seed gives. A fault ends the run, with the call and the seed.

use crate::guarded_inputs::Inputs;
use crate::pages::{self, Side};
use crate::{refusals, rounds, Counts};
use std::sync::atomic::{AtomicU64, AtomicUsize, Ordering::Relaxed};

/// The calls, in the header's order.
const NAMES: [&str; 36] = [
    "par1_md5",
    "par1_inverse",
    "par1_coefficient",
    "par1_mul_add",
    "par1_read",
    "par1_entry",
    "par1_check",
    "par1_write_entry",
    "par1_write_volume",
    "par1_amend",
    "par1_hash_start",
    "par1_hash_push",
    "par1_hash_end",
    "par1_mul_add_start",
    "par1_mul_add_push",
    "par1_mul_add_end",
    "par1_read_start",
    "par1_read_push",
    "par1_read_end",
    "par1_open",
    "par1_add_file",
    "par1_remove_file",
    "par1_add_volume",
    "par1_remove_volume",
    "par1_quarantine",
    "par1_release",
    "par1_count",
    "par1_query",
    "par1_compare",
    "par1_export",
    "par1_import",
    "par1_replay",
    "par1_catalog_open",
    "par1_catalog_add",
    "par1_catalog_drop",
    "par1_catalog_load",
];

/// How often each was called, the one that is running, and the seed of its round.
static CALLED: [AtomicU64; NAMES.len()] = [const { AtomicU64::new(0) }; NAMES.len()];
static RUNNING: AtomicUsize = AtomicUsize::new(0);
static SEED: AtomicU64 = AtomicU64::new(0);

/// A round: where its inputs come from, and the counts.
pub struct Round<'a> {
    pub inputs: Inputs,
    counts: &'a mut Counts,
}

impl Round<'_> {
    /// A call on both sides against what must come back, which is handed on.
    pub fn both<T: PartialEq + std::fmt::Debug>(&mut self, name: &str, call: impl Fn() -> T, want: T) -> T {
        let number = NAMES.iter().position(|&known| known == name).expect("a call of the header");
        RUNNING.store(number, Relaxed);
        for side in [Side::After, Side::Before] {
            CALLED[number].fetch_add(1, Relaxed);
            pages::lend_at(Some(side));
            let got = call();
            pages::lend_at(None);
            self.same(|| format!("{name}, {}", side.words()), &got, &want);
        }
        want
    }

    pub fn same<T: PartialEq + std::fmt::Debug>(&mut self, what: impl Fn() -> String, got: T, want: T) {
        self.counts.same(|| format!("seed {}, {}", SEED.load(Relaxed), what()), got, want);
    }
}

extern "C" {
    fn signal(number: i32, handler: extern "C" fn(i32)) -> usize;
    fn alarm(seconds: u32) -> u32;
    fn _exit(status: i32) -> !;
}

/// Faults of a call, an abort, and the alarm where no answer comes back. They come while a call of the library runs, which holds no lock.
const SIGNALS: [i32; 6] = [4, 6, 7, 8, 11, 14];

extern "C" fn fault(number: i32) {
    let side = pages::side().map_or("ordinary memory", Side::words);
    println!("{} ended with signal {number}: seed {}, {side}", NAMES[RUNNING.load(Relaxed)], SEED.load(Relaxed));
    unsafe { _exit(1) }
}

/// How many calls a round makes on each side, and how many seconds it may take.
const CALLS: usize = 400;
const SECONDS: u32 = 60;

fn round(counts: &mut Counts, seed: u64) {
    SEED.store(seed, Relaxed);
    unsafe { alarm(SECONDS) };
    let mut round = Round { inputs: Inputs::new(seed), counts };
    for _ in 0..CALLS {
        round.any_call();
    }
    unsafe { alarm(0) };
}

/// All rounds, or the one of this seed.
pub fn run(counts: &mut Counts, seed: Option<u64>) {
    SIGNALS.into_iter().for_each(|number| unsafe {
        signal(number, fault);
    });
    if let Some(seed) = seed {
        return round(counts, seed);
    }
    for seed in 1..=rounds(6000) {
        round(counts, seed as u64);
    }
    for (name, times) in NAMES.iter().zip(&CALLED) {
        println!("{name}: {} calls", times.load(Relaxed));
    }
    refusals::compare(counts, false);
}
