//! The instructions, as one would write them in plain Rust.

#[derive(Clone, Copy, Debug, PartialEq, Eq)]
pub enum Width {
    W32,
    W64,
}

#[derive(Clone, Copy, Debug, PartialEq, Eq)]
pub enum Operation {
    Add,
    Sub,
    Mul,
    Div,
    Sdiv,
    Or,
    And,
    Lsh,
    Rsh,
    Rem,
    Srem,
    Xor,
    Mov,
    Arsh,
}

#[derive(Clone, Copy, Debug, PartialEq, Eq)]
pub enum Source {
    Imm(i32),
    Reg(u8),
}

#[derive(Clone, Copy, Debug, PartialEq, Eq)]
pub enum Size {
    Byte,
    Half,
    Word,
    Double,
}

#[derive(Clone, Copy, Debug, PartialEq, Eq)]
pub enum Condition {
    Equal,
    Greater,
    GreaterEqual,
    AnyBit,
    NotEqual,
    SignedGreater,
    SignedGreaterEqual,
    Less,
    LessEqual,
    SignedLess,
    SignedLessEqual,
}

#[derive(Clone, Copy, Debug, PartialEq, Eq)]
pub enum Order {
    Little,
    Big,
    Swapped,
}

#[derive(Clone, Copy, Debug, PartialEq, Eq)]
pub enum Bits {
    B8,
    B16,
    B32,
    B64,
}

#[derive(Clone, Copy, Debug, PartialEq, Eq)]
pub enum Insn {
    Alu { width: Width, op: Operation, dst: u8, src: Source },
    MovSx { width: Width, bits: Bits, dst: u8, src: u8 },
    Neg { width: Width, dst: u8 },
    End { kind: Order, bits: Bits, dst: u8 },
    Load { size: Size, signed: bool, dst: u8, src: u8, off: i16 },
    StoreImm { size: Size, dst: u8, off: i16, imm: i32 },
    StoreReg { size: Size, dst: u8, off: i16, src: u8 },
    Imm64 { dst: u8, value: u64 },
    MapRef { dst: u8, index: i32 },
    Goto { off: i16 },
    Goto32 { imm: i32 },
    Branch { width: Width, cond: Condition, dst: u8, src: Source, off: i16 },
    Call { helper: i32 },
    Exit,
}

impl Insn {
    pub fn slots(&self) -> usize {
        match self {
            Insn::Imm64 { .. } | Insn::MapRef { .. } => 2,
            _ => 1,
        }
    }
}
