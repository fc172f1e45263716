//! The field: all 65,536 products, all inverses, coefficients of both codes and of none within and round their range; with room for the answer and
//! without.

use crate::{calls, expected, field, rounds, Counts, Random};

pub fn run(counts: &mut Counts, _: &mut Random) {
    for a in 0..=255 {
        for b in (0..=255).step_by(256 / rounds(256)) {
            let mut sum = [0];
            calls::mul_add(a, &[b], &mut sum);
            counts.same(|| format!("{a} times {b}"), sum[0], field::product(a, b));
        }
        for room in [&[][..], &[9], &[9, 9]] {
            counts.same(|| format!("inverse of {a}"), calls::inverse(a, room), expected::inverse(a, room));
        }
    }
    let numbers = (0..=257).chain([1 << 8, 1 << 32, u64::MAX - 254, u64::MAX - 1, u64::MAX]);
    for f in numbers.clone().take(rounds(263)) {
        for v in numbers.clone() {
            let room: &[u8] = if (f % 5 + v % 7) % 5 == 0 { &[] } else { &[9, 9] };
            for code in [0, 1, 2, u32::MAX] {
                let what = || format!("coefficient of file {f} in volume {v} by code {code}");
                counts.same(what, calls::coefficient(code, f, v, room), expected::coefficient(code, f, v, room));
            }
        }
    }
}
