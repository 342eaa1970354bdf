//! From a text to instructions and back, with the same faults.
use crate::insn::{Bits, Condition, Insn, Operation, Order, Size, Source, Width};
use std::collections::HashMap;
use std::fmt::{self, Display, Write as _};

#[derive(Clone, Copy, Debug, PartialEq, Eq, PartialOrd, Ord)]
pub enum Cause {
    Word,
    Number,
    LabelTwice,
    LabelMissing,
    Slots,
}

#[derive(Clone, Copy, Debug, PartialEq, Eq)]
enum Mnemonic {
    Alu(Width, Operation),
    MovSx(Width, Bits),
    Neg(Width),
    End(Order, Bits),
    Load(Size),
    LoadSigned(Size),
    StoreImm(Size),
    StoreReg(Size),
    Imm64,
    MapRef,
    Goto,
    Goto32,
    Branch(Width, Condition),
    Call,
    Exit,
}

fn mnemonic(word: &str) -> Option<Mnemonic> {
    use self::Bits::*;
    use self::Condition::*;
    use self::Mnemonic::*;
    use self::Operation::*;
    use self::Order::*;
    use self::Size::*;
    use self::Width::*;
    let found = match word {
        "add64" => Alu(W64, Add),
        "sub64" => Alu(W64, Sub),
        "mul64" => Alu(W64, Mul),
        "div64" => Alu(W64, Div),
        "sdiv64" => Alu(W64, Sdiv),
        "or64" => Alu(W64, Or),
        "and64" => Alu(W64, And),
        "lsh64" => Alu(W64, Lsh),
        "rsh64" => Alu(W64, Rsh),
        "mod64" => Alu(W64, Rem),
        "smod64" => Alu(W64, Srem),
        "xor64" => Alu(W64, Xor),
        "mov64" => Alu(W64, Mov),
        "arsh64" => Alu(W64, Arsh),
        "jeq64" => Branch(W64, Equal),
        "jgt64" => Branch(W64, Greater),
        "jge64" => Branch(W64, GreaterEqual),
        "jset64" => Branch(W64, AnyBit),
        "jne64" => Branch(W64, NotEqual),
        "jsgt64" => Branch(W64, SignedGreater),
        "jsge64" => Branch(W64, SignedGreaterEqual),
        "jlt64" => Branch(W64, Less),
        "jle64" => Branch(W64, LessEqual),
        "jslt64" => Branch(W64, SignedLess),
        "jsle64" => Branch(W64, SignedLessEqual),
        "neg64" => Neg(W64),
        "add32" => Alu(W32, Add),
        "sub32" => Alu(W32, Sub),
        "mul32" => Alu(W32, Mul),
        "div32" => Alu(W32, Div),
        "sdiv32" => Alu(W32, Sdiv),
        "or32" => Alu(W32, Or),
        "and32" => Alu(W32, And),
        "lsh32" => Alu(W32, Lsh),
        "rsh32" => Alu(W32, Rsh),
        "mod32" => Alu(W32, Rem),
        "smod32" => Alu(W32, Srem),
        "xor32" => Alu(W32, Xor),
        "mov32" => Alu(W32, Mov),
        "arsh32" => Alu(W32, Arsh),
        "jeq32" => Branch(W32, Equal),
        "jgt32" => Branch(W32, Greater),
        "jge32" => Branch(W32, GreaterEqual),
        "jset32" => Branch(W32, AnyBit),
        "jne32" => Branch(W32, NotEqual),
        "jsgt32" => Branch(W32, SignedGreater),
        "jsge32" => Branch(W32, SignedGreaterEqual),
        "jlt32" => Branch(W32, Less),
        "jle32" => Branch(W32, LessEqual),
        "jslt32" => Branch(W32, SignedLess),
        "jsle32" => Branch(W32, SignedLessEqual),
        "neg32" => Neg(W32),
        "movsx32_8" => MovSx(W32, B8),
        "movsx32_16" => MovSx(W32, B16),
        "movsx64_8" => MovSx(W64, B8),
        "movsx64_16" => MovSx(W64, B16),
        "movsx64_32" => MovSx(W64, B32),
        "le16" => End(Little, B16),
        "le32" => End(Little, B32),
        "le64" => End(Little, B64),
        "be16" => End(Big, B16),
        "be32" => End(Big, B32),
        "be64" => End(Big, B64),
        "swap16" => End(Swapped, B16),
        "swap32" => End(Swapped, B32),
        "swap64" => End(Swapped, B64),
        "ldxb" => Load(Byte),
        "ldxh" => Load(Half),
        "ldxw" => Load(Word),
        "ldxdw" => Load(Double),
        "ldxsb" => LoadSigned(Byte),
        "ldxsh" => LoadSigned(Half),
        "ldxsw" => LoadSigned(Word),
        "stb" => StoreImm(Byte),
        "sth" => StoreImm(Half),
        "stw" => StoreImm(Word),
        "stdw" => StoreImm(Double),
        "stxb" => StoreReg(Byte),
        "stxh" => StoreReg(Half),
        "stxw" => StoreReg(Word),
        "stxdw" => StoreReg(Double),
        "lddw" => Imm64,
        "ldmap" => MapRef,
        "ja" => Goto,
        "ja32" => Goto32,
        "call" => Call,
        "exit" => Exit,
        _ => return None,
    };
    Some(found)
}

fn is_label(word: &str) -> bool {
    let bytes = word.as_bytes();
    (1..=32).contains(&bytes.len())
        && !bytes[0].is_ascii_digit()
        && bytes.iter().all(|b| b.is_ascii_alphanumeric() || *b == b'_')
}

fn magnitude(word: &str) -> Option<u64> {
    let (digits, base) = match word.strip_prefix("0x") {
        Some(digits) => (digits, 16),
        None => (word, 10),
    };
    if digits.starts_with('+') {
        return None;
    }
    u64::from_str_radix(digits, base).ok()
}

fn signed(word: &str, low: i64, high: i64) -> Option<i64> {
    let value = match word.strip_prefix('-') {
        Some(digits) => -i128::from(magnitude(digits)?),
        None => i128::from(magnitude(word)?),
    };
    (i128::from(low) <= value && value <= i128::from(high)).then_some(value as i64)
}

fn with_sign(word: &str, low: i64, high: i64) -> Option<i64> {
    match word.as_bytes().first()? {
        b'-' => signed(word, low, high),
        b'+' if word.as_bytes().get(1) != Some(&b'-') => signed(&word[1..], low, high),
        _ => None,
    }
}

fn number<T>(value: Option<T>, word: &str) -> Result<T, Cause> {
    value.ok_or_else(|| match word.as_bytes().first() {
        Some(b'0'..=b'9' | b'+' | b'-') => Cause::Number,
        _ => Cause::Word,
    })
}

fn register_of(word: &str) -> Option<u8> {
    match word.as_bytes() {
        [b'r', d @ b'0'..=b'9'] => Some(d - b'0'),
        b"r10" => Some(10),
        _ => None,
    }
}

fn register(word: &str) -> Result<u8, Cause> {
    register_of(word).ok_or(Cause::Word)
}

fn imm(word: &str) -> Result<i32, Cause> {
    number(signed(word, i64::from(i32::MIN), i64::from(i32::MAX)), word).map(|n| n as i32)
}

fn source(word: &str) -> Result<Source, Cause> {
    match register_of(word) {
        Some(register) => Ok(Source::Reg(register)),
        None => imm(word).map(Source::Imm),
    }
}

fn wide(word: &str) -> Result<u64, Cause> {
    let value = match word.strip_prefix('-') {
        Some(digits) => magnitude(digits).filter(|n| *n == 0),
        None => magnitude(word),
    };
    number(value, word)
}

fn memory(word: &str) -> Result<(u8, i16), Cause> {
    let inner = word.strip_prefix('[').and_then(|w| w.strip_suffix(']')).ok_or(Cause::Word)?;
    let at = inner.find(['+', '-']).unwrap_or(inner.len());
    let base = register(&inner[..at])?;
    let rest = &inner[at..];
    if rest.is_empty() {
        return Ok((base, 0));
    }
    number(with_sign(rest, -0x8000, 0x7fff), rest).map(|n| (base, n as i16))
}

enum Target<'a> {
    Distance(i64),
    Label(&'a str),
}

fn target(word: &str, low: i64, high: i64) -> Result<Target<'_>, Cause> {
    if is_label(word) {
        return Ok(Target::Label(word));
    }
    number(with_sign(word, low, high), word).map(Target::Distance)
}

fn two<A, B>(a: Result<A, Cause>, b: Result<B, Cause>) -> Result<(A, B), Cause> {
    match (a, b) {
        (Ok(a), Ok(b)) => Ok((a, b)),
        (Err(a), Err(b)) => Err(a.min(b)),
        (Err(cause), Ok(_)) | (Ok(_), Err(cause)) => Err(cause),
    }
}

fn one<'a>(operands: &[&'a str]) -> Result<&'a str, Cause> {
    match operands {
        [a] => Ok(a),
        _ => Err(Cause::Word),
    }
}

fn pair<'a>(operands: &[&'a str]) -> Result<(&'a str, &'a str), Cause> {
    match operands {
        [a, b] => Ok((a, b)),
        _ => Err(Cause::Word),
    }
}

/// An instruction, with the distance 0 to a label, and that label.
fn instruction<'a>(first: &str, operands: &[&'a str]) -> Result<(Insn, Option<&'a str>), Cause> {
    let near = |word| target(word, -0x8000, 0x7fff);
    let insn = match mnemonic(first).ok_or(Cause::Word)? {
        Mnemonic::Alu(width, op) => {
            let (a, b) = pair(operands)?;
            let (dst, src) = two(register(a), source(b))?;
            Insn::Alu { width, op, dst, src }
        }
        Mnemonic::MovSx(width, bits) => {
            let (a, b) = pair(operands)?;
            let (dst, src) = two(register(a), register(b))?;
            Insn::MovSx { width, bits, dst, src }
        }
        Mnemonic::Neg(width) => Insn::Neg { width, dst: register(one(operands)?)? },
        Mnemonic::End(kind, bits) => Insn::End { kind, bits, dst: register(one(operands)?)? },
        Mnemonic::Load(size) => {
            let (a, b) = pair(operands)?;
            let (dst, (src, off)) = two(register(a), memory(b))?;
            Insn::Load { size, signed: false, dst, src, off }
        }
        Mnemonic::LoadSigned(size) => {
            let (a, b) = pair(operands)?;
            let (dst, (src, off)) = two(register(a), memory(b))?;
            Insn::Load { size, signed: true, dst, src, off }
        }
        Mnemonic::StoreImm(size) => {
            let (a, b) = pair(operands)?;
            let ((dst, off), imm) = two(memory(a), imm(b))?;
            Insn::StoreImm { size, dst, off, imm }
        }
        Mnemonic::StoreReg(size) => {
            let (a, b) = pair(operands)?;
            let ((dst, off), src) = two(memory(a), register(b))?;
            Insn::StoreReg { size, dst, off, src }
        }
        Mnemonic::Imm64 => {
            let (a, b) = pair(operands)?;
            let (dst, value) = two(register(a), wide(b))?;
            Insn::Imm64 { dst, value }
        }
        Mnemonic::MapRef => {
            let (a, b) = pair(operands)?;
            let (dst, index) = two(register(a), imm(b))?;
            Insn::MapRef { dst, index }
        }
        Mnemonic::Goto => {
            return Ok(match near(one(operands)?)? {
                Target::Distance(off) => (Insn::Goto { off: off as i16 }, None),
                Target::Label(label) => (Insn::Goto { off: 0 }, Some(label)),
            });
        }
        Mnemonic::Goto32 => {
            return Ok(match target(one(operands)?, i64::from(i32::MIN), i64::from(i32::MAX))? {
                Target::Distance(imm) => (Insn::Goto32 { imm: imm as i32 }, None),
                Target::Label(label) => (Insn::Goto32 { imm: 0 }, Some(label)),
            });
        }
        Mnemonic::Branch(width, cond) => {
            let [a, b, c] = operands else { return Err(Cause::Word) };
            let ((dst, src), to) = two(two(register(a), source(b)), near(c))?;
            let (off, label) = match to {
                Target::Distance(off) => (off as i16, None),
                Target::Label(label) => (0, Some(label)),
            };
            return Ok((Insn::Branch { width, cond, dst, src, off }, label));
        }
        Mnemonic::Call => Insn::Call { helper: imm(one(operands)?)? },
        Mnemonic::Exit if operands.is_empty() => Insn::Exit,
        Mnemonic::Exit => return Err(Cause::Word),
    };
    Ok((insn, None))
}

struct Jump<'a> {
    index: usize,
    next: usize,
    line: usize,
    label: &'a str,
}

pub fn assemble(text: &str) -> Result<Vec<Insn>, (usize, Cause)> {
    let mut labels = HashMap::new();
    let mut insns = Vec::new();
    let mut jumps: Vec<Jump> = Vec::new();
    let mut slots = 0;
    for (k, line) in text.lines().enumerate() {
        let at = |cause| (k + 1, cause);
        let code = line.split(';').next().unwrap_or("");
        let mut words = code.split([' ', '\t', ',']).filter(|w| !w.is_empty());
        let Some(first) = words.next() else { continue };
        let mut operands = [""; 4];
        let mut count = 0;
        for word in words {
            if count == 4 {
                return Err(at(Cause::Word));
            }
            operands[count] = word;
            count += 1;
        }
        if let (0, Some(name)) = (count, first.strip_suffix(':')) {
            if !is_label(name) {
                return Err(at(Cause::Word));
            }
            if labels.insert(name, slots).is_some() {
                return Err(at(Cause::LabelTwice));
            }
            continue;
        }
        let (insn, label) = instruction(first, &operands[..count]).map_err(at)?;
        let next = slots + insn.slots();
        if next > 4096 {
            return Err(at(Cause::Slots));
        }
        if let Some(label) = label {
            jumps.push(Jump { index: insns.len(), next, line: k + 1, label });
        }
        insns.push(insn);
        slots = next;
    }
    if insns.is_empty() {
        return Err((0, Cause::Slots));
    }
    for jump in jumps {
        let slot = *labels.get(jump.label).ok_or((jump.line, Cause::LabelMissing))?;
        let distance = (slot as i64 - jump.next as i64) as i16;
        match &mut insns[jump.index] {
            Insn::Goto { off } | Insn::Branch { off, .. } => *off = distance,
            Insn::Goto32 { imm } => *imm = i32::from(distance),
            _ => {}
        }
    }
    Ok(insns)
}

impl Display for Width {
    fn fmt(&self, f: &mut fmt::Formatter<'_>) -> fmt::Result {
        f.write_str(match self {
            Width::W32 => "32",
            Width::W64 => "64",
        })
    }
}

impl Display for Operation {
    fn fmt(&self, f: &mut fmt::Formatter<'_>) -> fmt::Result {
        f.write_str(match self {
            Operation::Add => "add",
            Operation::Sub => "sub",
            Operation::Mul => "mul",
            Operation::Div => "div",
            Operation::Sdiv => "sdiv",
            Operation::Or => "or",
            Operation::And => "and",
            Operation::Lsh => "lsh",
            Operation::Rsh => "rsh",
            Operation::Rem => "mod",
            Operation::Srem => "smod",
            Operation::Xor => "xor",
            Operation::Mov => "mov",
            Operation::Arsh => "arsh",
        })
    }
}

impl Display for Condition {
    fn fmt(&self, f: &mut fmt::Formatter<'_>) -> fmt::Result {
        f.write_str(match self {
            Condition::Equal => "jeq",
            Condition::Greater => "jgt",
            Condition::GreaterEqual => "jge",
            Condition::AnyBit => "jset",
            Condition::NotEqual => "jne",
            Condition::SignedGreater => "jsgt",
            Condition::SignedGreaterEqual => "jsge",
            Condition::Less => "jlt",
            Condition::LessEqual => "jle",
            Condition::SignedLess => "jslt",
            Condition::SignedLessEqual => "jsle",
        })
    }
}

impl Display for Size {
    fn fmt(&self, f: &mut fmt::Formatter<'_>) -> fmt::Result {
        f.write_str(match self {
            Size::Byte => "b",
            Size::Half => "h",
            Size::Word => "w",
            Size::Double => "dw",
        })
    }
}

impl Display for Order {
    fn fmt(&self, f: &mut fmt::Formatter<'_>) -> fmt::Result {
        f.write_str(match self {
            Order::Little => "le",
            Order::Big => "be",
            Order::Swapped => "swap",
        })
    }
}

impl Display for Bits {
    fn fmt(&self, f: &mut fmt::Formatter<'_>) -> fmt::Result {
        f.write_str(match self {
            Bits::B8 => "8",
            Bits::B16 => "16",
            Bits::B32 => "32",
            Bits::B64 => "64",
        })
    }
}

impl Display for Source {
    fn fmt(&self, f: &mut fmt::Formatter<'_>) -> fmt::Result {
        match self {
            Source::Imm(imm) => write!(f, "{imm}"),
            Source::Reg(register) => write!(f, "r{register}"),
        }
    }
}

impl Display for Insn {
    fn fmt(&self, f: &mut fmt::Formatter<'_>) -> fmt::Result {
        match self {
            Insn::Alu { width, op, dst, src } => writeln!(f, "{op}{width} r{dst}, {src}"),
            Insn::MovSx { width, bits, dst, src } => writeln!(f, "movsx{width}_{bits} r{dst}, r{src}"),
            Insn::Neg { width, dst } => writeln!(f, "neg{width} r{dst}"),
            Insn::End { kind, bits, dst } => writeln!(f, "{kind}{bits} r{dst}"),
            Insn::Load { size, signed, dst, src, off } => {
                let sign = if *signed { "s" } else { "" };
                writeln!(f, "ldx{sign}{size} r{dst}, [r{src}{off:+}]")
            }
            Insn::StoreImm { size, dst, off, imm } => writeln!(f, "st{size} [r{dst}{off:+}], {imm}"),
            Insn::StoreReg { size, dst, off, src } => writeln!(f, "stx{size} [r{dst}{off:+}], r{src}"),
            Insn::Imm64 { dst, value } => writeln!(f, "lddw r{dst}, {value}"),
            Insn::MapRef { dst, index } => writeln!(f, "ldmap r{dst}, {index}"),
            Insn::Goto { off } => writeln!(f, "ja {off:+}"),
            Insn::Goto32 { imm } => writeln!(f, "ja32 {imm:+}"),
            Insn::Branch { width, cond, dst, src, off } => {
                writeln!(f, "{cond}{width} r{dst}, {src}, {off:+}")
            }
            Insn::Call { helper } => writeln!(f, "call {helper}"),
            Insn::Exit => writeln!(f, "exit"),
        }
    }
}

pub fn listing(insns: &[Insn]) -> String {
    let mut text = String::new();
    for insn in insns {
        let _ = write!(text, "{insn}");
    }
    text
}

/// 4,096 lines: every form in turn, and a label before each twentieth line.
pub fn mixed() -> String {
    let forms = [
        "ldxw r6, [r1+4]",
        "mov64 r2, r10",
        "add64 r2, -4",
        "stw [r10-4], 0 ; the entry",
        "call 1",
        "jne64 r0, 0, LABEL",
        "mov32 r0, 0x7fffffff",
        "and64 r6, 8",
        "add64 r0, r6",
        "ldxdw r0, [r0+0]",
        "stxdw [r0+16], r4",
        "lsh32 r3, 5",
        "jslt32 r1, r2, +3",
        "movsx64_32 r2, r3",
        "be16 r1",
        "ja +0",
        "neg64 r4",
        "\tmul64 r3, r4",
        "ldxsh r2, [r1-2]",
        "sdiv64 r1, -3",
        "jset64 r1, 65536, LABEL",
        "smod32 r7, r8",
        "exit",
        "xor32 r1, r2",
        "arsh64 r1, 63",
    ];
    let mut text = String::new();
    let (mut labels, mut form) = (0, 0);
    for line in 0..4096 {
        if line % 20 == 0 {
            let _ = writeln!(text, "label_{labels}:");
            labels += 1;
            continue;
        }
        let _ = writeln!(text, "{}", forms[form % forms.len()].replace("LABEL", &format!("label_{}", line / 20)));
        form += 1;
    }
    text
}

/// 4,096 lines: 2,048 labels, and before each a jump to the next one.
pub fn labels() -> String {
    let mut text = String::new();
    for k in 0..2048 {
        let _ = writeln!(text, "ja some_longer_label_{k}\nsome_longer_label_{k}:");
    }
    text
}
