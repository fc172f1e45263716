//! Ways of cutting an input (document 02, 2026-03: "successive chunks of any length, zero too").

use crate::Random;

pub type Chunks<'a> = Vec<&'a [u8]>;

/// Every cut in two, the one before the first byte and the one after the last too.
pub fn in_two(input: &[u8]) -> impl Iterator<Item = Chunks<'_>> {
    (0..=input.len()).map(|i| vec![&input[..i], &input[i..]])
}

/// Every cut in three, chunks of no bytes among them.
pub fn in_three(input: &[u8]) -> impl Iterator<Item = Chunks<'_>> {
    let second = move |i: usize| (i..=input.len()).map(move |j| vec![&input[..i], &input[i..j], &input[j..]]);
    (0..=input.len()).flat_map(second)
}

/// Chunks of this length, and a shorter one at the end; of no bytes no chunk.
pub fn each(input: &[u8], length: usize) -> Chunks<'_> {
    input.chunks(length).collect()
}

/// Byte by byte, with a chunk of no bytes before each and one at the end.
pub fn spaced(input: &[u8]) -> Chunks<'_> {
    (0..input.len()).flat_map(|i| [&input[i..i], &input[i..i + 1]]).chain([&input[input.len()..]]).collect()
}

/// Chunks of random lengths, some of no bytes, none longer than `most`.
pub fn random<'a>(input: &'a [u8], most: usize, random: &mut Random) -> Chunks<'a> {
    let mut chunks = vec![];
    let mut rest = input;
    while !rest.is_empty() {
        let lengths = [0, 1, 2, 63, 64, 65, random.below(most + 1)];
        let (chunk, after) = rest.split_at(lengths[random.below(7)].min(most).min(rest.len()));
        chunks.push(chunk);
        rest = after;
    }
    chunks
}
