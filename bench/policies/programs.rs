//! The programs that are timed, as bytes of RFC 9669.

/// The opcodes' parts that the programs use.
const ADD: u8 = 0x00;
const OR: u8 = 0x40;
const MOV: u8 = 0xb0;
const ALU32: u8 = 0x04;
const ALU64: u8 = 0x07;
const REGISTER: u8 = 0x08;
const EXIT: u8 = 0x95;
const EQUAL: u8 = 0x15;
const ANY_BIT: u8 = 0x45;
/// Of one, two, four and eight bytes.
const LOADS: [u8; 4] = [0x71, 0x69, 0x61, 0x79];
const STORES_IMM: [u8; 4] = [0x72, 0x6a, 0x62, 0x7a];
const STORES_REG: [u8; 4] = [0x73, 0x6b, 0x63, 0x7b];
/// The registers that hold numbers: 1 and 10 hold addresses.
const NUMBERS: [u8; 9] = [0, 2, 3, 4, 5, 6, 7, 8, 9];
const FRAME: u8 = 10;

/// Numbers without order, always the same.
struct Random(u64);

impl Random {
    /// Below the bound.
    fn below(&mut self, bound: usize) -> usize {
        self.0 = self.0.wrapping_mul(6364136223846793005).wrapping_add(1442695040888963407);
        (self.0 >> 33) as usize % bound
    }

    fn number(&mut self) -> u8 {
        NUMBERS[self.below(NUMBERS.len())]
    }

    fn immediate(&mut self) -> i32 {
        self.below(1 << 30) as i32 - (1 << 29)
    }
}

fn slot(bytes: &mut Vec<u8>, code: u8, dst: u8, src: u8, off: i16, imm: i32) {
    bytes.extend([code, src << 4 | dst]);
    bytes.extend(off.to_le_bytes());
    bytes.extend(imm.to_le_bytes());
}

/// So many slots of arithmetic, the EXIT included: all twelve operations, both widths, both kinds of operand.
fn arithmetic(count: usize) -> Vec<u8> {
    let mut random = Random(1);
    let mut bytes = Vec::new();
    for k in 0..count - 1 {
        let imm = random.immediate();
        match NUMBERS.get(k) {
            Some(dst) => slot(&mut bytes, ALU64 | MOV, *dst, 0, 0, imm),
            None => {
                let op = [0, 1, 2, 3, 4, 5, 6, 7, 9, 10, 11, 12][random.below(12)] << 4;
                let width = [ALU32, ALU64][random.below(2)];
                let (dst, src) = (random.number(), random.number());
                match random.below(2) {
                    0 => slot(&mut bytes, op | width, dst, 0, 0, imm),
                    _ => slot(&mut bytes, op | width | REGISTER, dst, src, 0, 0),
                }
            }
        }
    }
    slot(&mut bytes, EXIT, 0, 0, 0, 0);
    bytes
}

/// Two slots: register 0 becomes a number.
fn short() -> Vec<u8> {
    let mut bytes = Vec::new();
    slot(&mut bytes, ALU64 | MOV, 0, 0, 0, 1);
    slot(&mut bytes, EXIT, 0, 0, 0, 0);
    bytes
}

/// So many slots of loads and stores on the stack, of every size, the EXIT included. The first 64 write all of the stack,
/// and the next nine read a number into each register.
fn memory(count: usize) -> Vec<u8> {
    let mut random = Random(2);
    let mut bytes = Vec::new();
    for k in 0..64 {
        slot(&mut bytes, STORES_IMM[3], FRAME, 0, -8 * (k + 1), random.immediate());
    }
    for (k, dst) in NUMBERS.iter().enumerate() {
        slot(&mut bytes, LOADS[3], *dst, FRAME, -8 * (k as i16 + 1), 0);
    }
    for _ in 64 + NUMBERS.len()..count - 1 {
        let size = random.below(4);
        let off = (random.below(512 >> size) << size) as i16 - 512;
        let imm = random.immediate();
        let register = random.number();
        match random.below(4) {
            0 => slot(&mut bytes, STORES_IMM[size], FRAME, 0, off, imm),
            1 => slot(&mut bytes, STORES_REG[size], FRAME, register, off, 0),
            _ => slot(&mut bytes, LOADS[size], register, FRAME, off, 0),
        }
    }
    slot(&mut bytes, EXIT, 0, 0, 0, 0);
    bytes
}

/// So many branches over one instruction each, on a number of the context, of which nothing is known.
fn diamonds(count: usize, bits: bool) -> Vec<u8> {
    let mut bytes = Vec::new();
    slot(&mut bytes, LOADS[3], 6, 1, 0, 0);
    slot(&mut bytes, ALU64 | MOV, 0, 0, 0, 0);
    for k in 0..count {
        if bits {
            let bit = 1 << (k % 31);
            slot(&mut bytes, ANY_BIT, 6, 0, 1, bit);
            slot(&mut bytes, ALU64 | OR, 0, 0, 0, bit);
        } else {
            slot(&mut bytes, EQUAL, 6, 0, 1, k as i32);
            slot(&mut bytes, ALU64 | ADD, 0, 0, 0, 1);
        }
    }
    slot(&mut bytes, EXIT, 0, 0, 0, 0);
    bytes
}

/// The program of that name.
pub fn named(name: &str) -> Option<Vec<u8>> {
    let (kind, count) = name.split_once('-')?;
    let count = count.parse().ok()?;
    match kind {
        "alu" if count == 2 => Some(short()),
        "alu" => Some(arithmetic(count)),
        "memory" => Some(memory(count)),
        "diamonds" => Some(diamonds(count, false)),
        "bits" => Some(diamonds(count, true)),
        _ => None,
    }
}
