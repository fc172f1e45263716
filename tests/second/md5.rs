//! MD5, written from RFC 1321 alone; the table T is computed from the sine.

/// The RFC's rows of shifts, one a round.
const SHIFTS: [[u32; 4]; 4] = [[7, 12, 17, 22], [5, 9, 14, 20], [4, 11, 16, 23], [6, 10, 15, 21]];

/// 3.3: A, B, C, D at the start.
pub const START: [u32; 4] = [0x67452301, 0xefcdab89, 0x98badcfe, 0x10325476];

/// 3.1 and 3.2, what follows on so many bytes: a bit 1, zeros to 448 modulo 512, the length in bits modulo 2^64.
pub fn padding(total: u64) -> Vec<u8> {
    let mut p = vec![0x80];
    while total.wrapping_add(p.len() as u64) % 64 != 56 {
        p.push(0);
    }
    p.extend_from_slice(&total.wrapping_mul(8).to_le_bytes());
    p
}

/// 3.4: A, B, C, D after these bytes, which are whole blocks.
pub fn blocks(mut state: [u32; 4], bytes: &[u8]) -> [u32; 4] {
    let t: Vec<u32> = (1..=64).map(|i| ((i as f64).sin().abs() * 4294967296.0) as u32).collect();
    for block in bytes.chunks(64) {
        let x: Vec<u32> = block.chunks(4).map(|w| u32::from_le_bytes([w[0], w[1], w[2], w[3]])).collect();
        let [mut a, mut b, mut c, mut d] = state;
        for i in 0..64 {
            let (f, k) = match i / 16 {
                0 => ((b & c) | (!b & d), i),
                1 => ((b & d) | (c & !d), (1 + 5 * i) % 16),
                2 => (b ^ c ^ d, (5 + 3 * i) % 16),
                _ => (c ^ (b | !d), 7 * i % 16),
            };
            let sum = a.wrapping_add(f).wrapping_add(x[k]).wrapping_add(t[i]);
            let next = b.wrapping_add(sum.rotate_left(SHIFTS[i / 16][i % 4]));
            (a, b, c, d) = (d, next, b, c);
        }
        for (s, v) in state.iter_mut().zip([a, b, c, d]) {
            *s = s.wrapping_add(v);
        }
    }
    state
}

/// 3.5.
pub fn output(state: [u32; 4]) -> [u8; 16] {
    let mut out = [0; 16];
    for (o, s) in out.chunks_mut(4).zip(state) {
        o.copy_from_slice(&s.to_le_bytes());
    }
    out
}

pub fn digest(message: &[u8]) -> [u8; 16] {
    output(blocks(START, &[message, &padding(message.len() as u64)].concat()))
}
