//! A second program, written from the documents alone: it compares its own answers with those of the C library's calls.
//!
//! `md5`, `field`, `par1`, `inventory`, `jobs`, `amend`, `differences`, `md5sum`, `catalog`, `replay` work the answers out; `expected` gives each call's
//! number and lent bytes from them; `calls`, `catalog_calls` and `job_calls` make the library's calls, on lent bytes with guards on both sides;
//! `refusals` has the numbers that each call may answer, `cuts` ways of cutting an input, `files` sets of files and their volumes; `compare_*` are the
//! comparisons. `guarded*` make the calls on memory beside pages that cannot be touched, `pages`.

mod amend;
mod calls;
mod catalog;
mod catalog_calls;
mod compare_amend;
mod compare_amend_refusals;
mod compare_amend_stretch;
mod compare_catalog;
mod compare_catalog_refusals;
mod compare_checked;
mod compare_codes;
mod compare_data_size;
mod compare_differences;
mod compare_entries;
mod compare_faults;
mod compare_field;
mod compare_hash_job;
mod compare_inventory;
mod compare_md5;
mod compare_md5sum;
mod compare_mul_add_job;
mod compare_names;
mod compare_order;
mod compare_par1;
mod compare_parity;
mod compare_quarantine;
mod compare_read_cuts;
mod compare_read_job;
mod compare_replay;
mod compare_sums;
mod cuts;
mod differences;
mod expected;
mod field;
mod files;
mod guarded;
mod guarded_calls;
mod guarded_inputs;
mod inventory;
mod job_calls;
mod jobs;
mod md5;
mod md5sum;
mod pages;
mod par1;
mod refusals;
mod replay;

/// How many rounds of a comparison: all, or a fiftieth of them where the program is called with the word `small`, as under valgrind.
pub fn rounds(n: usize) -> usize {
    if small() { n.div_ceil(50) } else { n }
}

pub fn small() -> bool {
    std::env::args().any(|word| word == "small")
}

/// How many calls, or runs of a job's calls, agreed, and how many differed.
pub struct Counts {
    passed: u64,
    failed: u64,
}

impl Counts {
    pub fn same<T: PartialEq + std::fmt::Debug>(&mut self, what: impl Fn() -> String, got: T, want: T) {
        if got == want {
            self.passed += 1;
            return;
        }
        self.failed += 1;
        if self.failed <= 20 {
            println!("{}: got {:.200}, expected {:.200}", what(), format!("{got:?}"), format!("{want:?}"));
        }
    }
}

/// Numbers from a fixed seed, so that each run is the same.
pub struct Random(u64);

impl Random {
    pub fn below(&mut self, n: usize) -> usize {
        self.0 = self.0.wrapping_mul(6364136223846793005).wrapping_add(1442695040888963407);
        (self.0 >> 33) as usize % n
    }

    pub fn bytes(&mut self, n: usize) -> Vec<u8> {
        (0..n).map(|_| self.below(256) as u8).collect()
    }
}

/// The comparisons one after another, then whether each refusal of each call came back, and no other.
fn compare(counts: &mut Counts) {
    let mut random = Random(2026);
    let parts: [(&str, fn(&mut Counts, &mut Random)); 26] = [
        ("md5", compare_md5::run),
        ("field", compare_field::run),
        ("parity", compare_parity::run),
        ("par1", compare_par1::run),
        ("entries", compare_entries::run),
        ("faults", compare_faults::run),
        ("data size", compare_data_size::run),
        ("inventory", compare_inventory::run),
        ("hash in chunks", compare_hash_job::run),
        ("mul_add in chunks", compare_mul_add_job::run),
        ("files cut in chunks", compare_read_cuts::run),
        ("reading in chunks", compare_read_job::run),
        ("amendments", compare_amend::run),
        ("stretches amended", compare_amend_stretch::run),
        ("amendments refused", compare_amend_refusals::run),
        ("files compared", compare_differences::run),
        ("text of md5sum", compare_md5sum::run),
        ("catalogs", compare_catalog::run),
        ("catalogs refused", compare_catalog_refusals::run),
        ("the checked mark", compare_checked::run),
        ("quarantine", compare_quarantine::run),
        ("replays", compare_replay::run),
        ("sums", compare_sums::run),
        ("codes", compare_codes::run),
        ("names", compare_names::run),
        ("refusals in their order", compare_order::run),
    ];
    for (name, run) in parts {
        let before = counts.passed + counts.failed;
        run(counts, &mut random);
        println!("{name}: {} comparisons", counts.passed + counts.failed - before);
    }
    refusals::compare(counts, !small());
}

/// With the word `guarded` the calls are made beside guard pages instead, in all rounds or in that of the seed that follows.
fn main() {
    let mut counts = Counts { passed: 0, failed: 0 };
    let mut words = std::env::args().skip(1);
    match words.next().as_deref() {
        Some("guarded") => guarded::run(&mut counts, words.next().and_then(|seed| seed.parse().ok())),
        _ => compare(&mut counts),
    }
    println!("{} passed, {} failed", counts.passed, counts.failed);
    std::process::exit((counts.failed > 0) as i32);
}
