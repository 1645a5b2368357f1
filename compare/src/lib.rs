//! What the comparison is made of: the codes, received words and confidences, and the archive behind safe functions.
use labrador_ldpc::LDPCCode;

#[cfg(feature = "archive")]
pub mod archive;
pub mod sheet;

/// The codes by number.
pub const CODES: [LDPCCode; 9] = [
    LDPCCode::TC128,
    LDPCCode::TC256,
    LDPCCode::TC512,
    LDPCCode::TM1280,
    LDPCCode::TM1536,
    LDPCCode::TM2048,
    LDPCCode::TM5120,
    LDPCCode::TM6144,
    LDPCCode::TM8192,
];

/// A generator of numbers that are the same in every run.
pub struct Dice(u64);

impl Dice {
    pub fn new(seed: u64) -> Self {
        Dice(seed.wrapping_mul(0x9e37_79b9_7f4a_7c15) | 1)
    }

    pub fn next(&mut self) -> u64 {
        self.0 ^= self.0 << 13;
        self.0 ^= self.0 >> 7;
        self.0 ^= self.0 << 17;
        self.0.wrapping_mul(0x2545_f491_4f6c_dd1d)
    }

    pub fn below(&mut self, n: usize) -> usize {
        ((self.next() >> 33) as usize) % n
    }

    pub fn fill(&mut self, bytes: &mut [u8]) {
        for b in bytes {
            *b = (self.next() >> 40) as u8;
        }
    }
}

/// The encoded frame of random data, by the Rust.
pub fn frame(code: LDPCCode, dice: &mut Dice) -> Vec<u8> {
    let mut word = vec![0; code.n() / 8];
    dice.fill(&mut word[..code.k() / 8]);
    code.encode(&mut word);
    word
}

/// Bit i of a byte string.
pub fn bit_at(word: &[u8], i: usize) -> bool {
    word[i / 8] >> (7 - i % 8) & 1 == 1
}

pub fn flip_bit(word: &mut [u8], i: usize) {
    word[i / 8] ^= 128 >> (i % 8);
}

pub fn flip(word: &mut [u8], dice: &mut Dice, count: usize) {
    for _ in 0..count {
        flip_bit(word, dice.below(word.len() * 8));
    }
}

/// A received word: a frame with some flips, many flips, or no frame at all.
pub fn received(code: LDPCCode, dice: &mut Dice) -> Vec<u8> {
    let mut word = frame(code, dice);
    match dice.below(10) {
        0..=2 => {}
        3..=6 => {
            let count = 1 + dice.below(4);
            flip(&mut word, dice, count);
        }
        7 => {
            let count = 5 + dice.below(code.n() / 50 + 5);
            flip(&mut word, dice, count);
        }
        8 => {
            let count = code.n() / 8;
            flip(&mut word, dice, count);
        }
        _ => dice.fill(&mut word),
    }
    word
}

/// Confidences: of a received word at one strength or at many, or any at all with many of the extremes.
pub fn confidences(code: LDPCCode, dice: &mut Dice) -> Vec<i8> {
    if dice.below(5) == 0 {
        return (0..code.n())
            .map(|_| match dice.below(4) {
                0 => -128,
                1 => 127,
                2 => 0,
                _ => (dice.next() >> 40) as i8,
            })
            .collect();
    }
    let word = received(code, dice);
    let strength = [1, 2, 7, 30, 100, 127][dice.below(6)];
    let noise = [0, 0, 1, 5, 20, 60][dice.below(6)];
    (0..code.n())
        .map(|i| {
            let one = bit_at(&word, i);
            let wobble = if noise == 0 { 0 } else { dice.below(2 * noise + 1) as i32 - noise as i32 };
            ((if one { -strength } else { strength }) + wobble).clamp(-128, 127) as i8
        })
        .collect()
}

/// Confidences of one size.
pub fn confident(word: &[u8], size: i8) -> Vec<i8> {
    (0..word.len() * 8).map(|i| if bit_at(word, i) { -size } else { size }).collect()
}

/// A limit of iterations.
pub fn limit(dice: &mut Dice) -> usize {
    [0, 1, 1, 2, 2, 3, 3, 20, 20, 20, 50][dice.below(11)]
}
