//! Bytes as field elements and the factors of both codes, written from document 01, "The parity bytes", and document 02 (2026-13) alone.

/// "Product is the polynomial product reduced by 285": long multiplication, then long division.
pub fn product(a: u8, b: u8) -> u8 {
    let mut p: u32 = 0;
    for i in 0..8 {
        if b >> i & 1 == 1 {
            p ^= (a as u32) << i;
        }
    }
    for i in (8..15).rev() {
        if p >> i & 1 == 1 {
            p ^= 285 << (i - 8);
        }
    }
    p as u8
}

/// "Each non-zero byte has one inverse": found by trying all bytes.
pub fn inverse(a: u8) -> Option<u8> {
    let found: Vec<u8> = (0..=255).filter(|&b| product(a, b) == 1).collect();
    assert!(found.len() <= 1);
    found.first().copied()
}

/// By which factors volumes are made: "one code or the other".
#[derive(Clone, Copy, Debug, PartialEq)]
pub enum Code {
    Powers,
    Cauchy,
}

pub const CODES: [Code; 2] = [Code::Powers, Code::Cauchy];

impl Code {
    /// Its number from C and in lent bytes.
    pub fn number(self) -> u32 {
        self as u32
    }

    /// The code of a number; of another than 0 and 1 there is none.
    pub fn of(number: u64) -> Option<Code> {
        CODES.into_iter().find(|code| code.number() as u64 == number)
    }

    pub fn other(self) -> Code {
        CODES[1 - self as usize]
    }
}

/// "The factor of file f in volume v is f to the power v - 1"; of the other code "the inverse of f exclusive-or (256 - v), for f + v up to 255"
pub fn coefficient(code: Code, f: u8, v: u8) -> u8 {
    match code {
        Code::Powers => (1..v).fold(1, |power, _| product(power, f)),
        Code::Cauchy => inverse(f ^ (256 - v as u32) as u8).expect("f + v up to 255"),
    }
}

/// "buffer byte p gains weight times piece byte p, for each p that lies in both; other buffer bytes stay"
pub fn mul_add(weight: u8, fragment: &[u8], buffer: &[u8]) -> Vec<u8> {
    let gain = |p: usize| fragment.get(p).map_or(0, |&x| product(weight, x));
    (0..buffer.len()).map(|p| buffer[p] ^ gain(p)).collect()
}

/// "Byte p of volume v is the sum, over all saved files, of factor times byte p; a file that has ended counts as zero"
pub fn parity(code: Code, files: &[Vec<u8>], v: u64) -> Vec<u8> {
    let coefficients: Vec<u8> = (1..=files.len()).map(|f| coefficient(code, f as u8, v as u8)).collect();
    let byte = |p: usize| {
        let terms = files.iter().zip(&coefficients).map(|(file, &c)| product(c, *file.get(p).unwrap_or(&0)));
        terms.fold(0, |sum, term| sum ^ term)
    };
    (0..files.iter().map(Vec::len).max().unwrap_or(0)).map(byte).collect()
}
