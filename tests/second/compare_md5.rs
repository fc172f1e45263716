//! MD5: every length round the ends of one, two and more blocks, at each of eight alignments; long ones; rooms of 0 to 20 bytes.

use crate::{calls, expected, small, Counts, Random};

pub fn run(counts: &mut Counts, random: &mut Random) {
    let bytes = random.bytes(20000);
    let lengths = (0..=400).chain([4000, 4031, 4032, 4033, 16383, 16384, 16385]);
    for n in lengths {
        for at in 0..if small() { 1 } else { 8 } {
            let m = &bytes[at..at + n];
            counts.same(|| format!("md5 of {n} bytes at {at}"), calls::md5(m, &[7; 16]), expected::md5(m, &[7; 16]));
        }
    }
    for (message, digest) in SUITE {
        let bytes = (0..16).map(|i| u8::from_str_radix(&digest[2 * i..2 * i + 2], 16).unwrap()).collect();
        counts.same(|| format!("RFC 1321's suite: {message}"), calls::md5(message.as_bytes(), &[7; 16]), (0, bytes));
    }
    let long = random.bytes(if small() { 1 << 14 } else { 1 << 20 });
    counts.same(|| "md5 of a long message".into(), calls::md5(&long, &[7; 40]), expected::md5(&long, &[7; 40]));
    for n in 0..=20 {
        let room = random.bytes(n);
        counts.same(|| format!("md5 into {n} bytes"), calls::md5(b"abc", &room), expected::md5(b"abc", &room));
    }
}

/// RFC 1321, A.5.
const SUITE: [(&str, &str); 7] = [
    ("", "d41d8cd98f00b204e9800998ecf8427e"),
    ("a", "0cc175b9c0f1b6a831c399e269772661"),
    ("abc", "900150983cd24fb0d6963f7d28e17f72"),
    ("message digest", "f96b697d7cb7938d525a2f31aaf161d0"),
    ("abcdefghijklmnopqrstuvwxyz", "c3fcd3d76192e4007dfb496cca67e13b"),
    ("ABCDEFGHIJKLMNOPQRSTUVWXYZabcdefghijklmnopqrstuvwxyz0123456789", "d174ab98d277d9f5a5611c2c9f419d9f"),
    ("12345678901234567890123456789012345678901234567890123456789012345678901234567890", "57edf4a22be3c955ac49da2e2107b67a"),
];
