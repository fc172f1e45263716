//! "Folding obeys the sums" (document 02, 2026-12): each law by calls on random bytes, each fragment at once or in chunks, and held against the
//! field's own sums; two jobs that push in turns; sets of files, some not saved, split between two boxes.

use crate::field::{self, Code, CODES};
use crate::files::{self, File};
use crate::job_calls::{mul_add_end, mul_add_push, mul_add_start};
use crate::jobs::MUL_ADD;
use crate::{calls, cuts, rounds, Counts, Random};

/// "the byte-by-byte sum"; "Sum is exclusive or"
fn sum(one: &[u8], two: &[u8]) -> Vec<u8> {
    assert_eq!(one.len(), two.len());
    one.iter().zip(two).map(|(a, b)| a ^ b).collect()
}

/// The buffer after the library has added the fragment, in one call or in chunks cut at random.
fn added(weight: u8, fragment: &[u8], buffer: &[u8], random: &mut Random) -> Vec<u8> {
    let mut after = buffer.to_vec();
    if random.below(2) == 0 {
        calls::mul_add(weight, fragment, &mut after);
        return after;
    }
    let mut job = mul_add_start(weight, &[0; MUL_ADD]).1;
    for chunk in cuts::random(fragment, 1 + random.below(90), random) {
        let (number, next, now) = mul_add_push(&job, chunk, &after);
        assert_eq!(number, 0);
        (job, after) = (next, now);
    }
    assert_eq!(mul_add_end(&job).0, 0);
    after
}

fn laws(counts: &mut Counts, random: &mut Random) {
    for round in 0..rounds(4000) {
        let (n, k, m) = (random.below(200), random.below(200), random.below(200));
        let [v, w] = [(); 2].map(|_| random.below(256) as u8);
        let [one, two, other, buffer] = [n, n, k, m].map(|length| random.bytes(length));
        let what = |law: &str| format!("{law}, round {round}, weights {v} and {w}, fragments of {n}, {n} and {k} bytes, a buffer of {m}");
        let first = added(w, &one, &buffer, random);
        let summed = sum(&one, &two);
        let once = added(w, &summed, &buffer, random);
        counts.same(|| what("two fragments"), &added(w, &two, &first, random), &once);
        counts.same(|| what("the sum of two fragments"), &once, &field::mul_add(w, &summed, &buffer));
        let both = added(v ^ w, &one, &buffer, random);
        counts.same(|| what("two weights"), &added(v, &one, &first, random), &both);
        counts.same(|| what("the sum of two weights"), &both, &field::mul_add(v ^ w, &one, &buffer));
        counts.same(|| what("twice"), &added(w, &one, &first, random), &buffer);
        let second = added(v, &other, &buffer, random);
        counts.same(|| what("either order"), added(v, &other, &first, random), added(w, &one, &second, random));
        counts.same(|| what("the sum of two buffers"), added(1, &two, &one, random), summed);
    }
}

/// Two jobs push in turns into one buffer: as one after the other.
fn in_turns(counts: &mut Counts, random: &mut Random) {
    for round in 0..rounds(1000) {
        let (n, k, m) = (random.below(120), random.below(120), random.below(120));
        let [v, w] = [(); 2].map(|_| random.below(256) as u8);
        let [one, two, mut buffer] = [n, k, m].map(|length| random.bytes(length));
        let want = field::mul_add(w, &two, &field::mul_add(v, &one, &buffer));
        let mut jobs = [v, w].map(|weight| mul_add_start(weight, &[0; MUL_ADD]).1);
        let mut rest = [&one[..], &two[..]];
        while rest.iter().any(|bytes| !bytes.is_empty()) {
            let turn = random.below(2);
            let (chunk, after) = rest[turn].split_at(random.below(20).min(rest[turn].len()));
            let (number, next, now) = mul_add_push(&jobs[turn], chunk, &buffer);
            assert_eq!(number, 0);
            (jobs[turn], buffer, rest[turn]) = (next, now, after);
        }
        counts.same(|| format!("jobs in turns, round {round}, weights {v} and {w}"), buffer, want);
    }
}

/// "each folds its share once with the volume's factors into zeros of the data size"
fn share(code: Code, contents: &[&[u8]], v: u64, size: usize, numbers: &[usize], random: &mut Random) -> Vec<u8> {
    let mut buffer = vec![0; size];
    for &f in numbers {
        let (number, weight) = calls::coefficient(code.number(), f as u64, v, &[0]);
        assert_eq!(number, 0);
        buffer = added(weight[0], contents[f - 1], &buffer, random);
    }
    buffer
}

/// Each saved file goes to one of the boxes, which may get none, and is taken there at any time.
fn boxes(counts: &mut Counts, random: &mut Random) {
    for round in 0..rounds(600) {
        let mut set: Vec<File> = vec![];
        for _ in 0..1 + random.below(if round % 50 == 0 { 200 } else { 10 }) {
            let (length, saved) = (random.below(5) * random.below(60), random.below(4) > 0);
            set.push(files::file(random, length, saved));
        }
        set.push(files::file(random, 40, true));
        let contents: Vec<&[u8]> = files::saved(&set).into_iter().map(|i| &set[i].contents[..]).collect();
        let (n, size) = (contents.len(), contents.iter().map(|bytes| bytes.len()).max().unwrap());
        let v = 1 + random.below(255 - n) as u64;
        let mut shares = [vec![], vec![]];
        let second = random.below(5);
        for f in 1..=n {
            let share = &mut shares[(random.below(4) < second) as usize];
            share.insert(random.below(share.len() + 1), f);
        }
        let code = CODES[round % 2];
        let [one, two] = [0, 1].map(|i| share(code, &contents, v, size, &shares[i], random));
        let merged = added(1, &two, &one, random);
        let what = || format!("round {round}, {code:?} volume {v}, shares {shares:?}");
        counts.same(what, &merged, &sum(&one, &two));
        let want = files::afresh(code, &set, v);
        let (answer, volume) = calls::write_volume(code.number(), 0x0500_0001, v, &files::list(&set), &merged, &vec![0; want.len()]);
        counts.same(what, (answer, volume), (0, want));
    }
}

pub fn run(counts: &mut Counts, random: &mut Random) {
    laws(counts, random);
    in_turns(counts, random);
    boxes(counts, random);
}
