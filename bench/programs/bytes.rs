//! From bytes to instructions, with the same judgements.
use crate::insn::{Bits, Condition, Insn, Operation, Order, Size, Source, Width};

#[derive(Clone, Copy, Debug, PartialEq, Eq)]
pub enum Cause {
    Length,
    Opcode,
    Register,
    Field,
    Offset,
    Imm,
    WideCut,
}

#[derive(Clone, Copy)]
struct Slot {
    opcode: u8,
    dst: u8,
    src: u8,
    offset: i16,
    imm: i32,
}

impl Slot {
    fn read(bytes: &[u8]) -> Slot {
        Slot {
            opcode: bytes[0],
            dst: bytes[1] & 15,
            src: bytes[1] >> 4,
            offset: i16::from_le_bytes([bytes[2], bytes[3]]),
            imm: i32::from_le_bytes([bytes[4], bytes[5], bytes[6], bytes[7]]),
        }
    }
}

fn registers(slot: &Slot, dst: bool, src: bool) -> Result<(), Cause> {
    if (dst && slot.dst > 10) || (src && slot.src > 10) {
        return Err(Cause::Register);
    }
    Ok(())
}

fn zero(unused: bool) -> Result<(), Cause> {
    if unused { Ok(()) } else { Err(Cause::Field) }
}

fn size(opcode: u8) -> Size {
    match opcode >> 3 & 3 {
        0 => Size::Word,
        1 => Size::Half,
        2 => Size::Byte,
        _ => Size::Double,
    }
}

fn source(slot: &Slot) -> Source {
    if slot.opcode & 8 != 0 { Source::Reg(slot.src) } else { Source::Imm(slot.imm) }
}

fn operands(slot: &Slot) -> Result<(), Cause> {
    let by_register = slot.opcode & 8 != 0;
    registers(slot, true, by_register)?;
    zero(if by_register { slot.imm == 0 } else { slot.src == 0 })
}

fn operation(slot: &Slot, width: Width, op: Operation) -> Result<Insn, Cause> {
    operands(slot)?;
    zero(slot.offset == 0)?;
    Ok(Insn::Alu { width, op, dst: slot.dst, src: source(slot) })
}

fn division(slot: &Slot, width: Width, plain: Operation, signed: Operation) -> Result<Insn, Cause> {
    operands(slot)?;
    let op = match slot.offset {
        0 => plain,
        1 => signed,
        _ => return Err(Cause::Offset),
    };
    Ok(Insn::Alu { width, op, dst: slot.dst, src: source(slot) })
}

fn movement(slot: &Slot, width: Width) -> Result<Insn, Cause> {
    operands(slot)?;
    let by_register = slot.opcode & 8 != 0;
    let bits = match (slot.offset, by_register, width) {
        (0, _, _) => {
            return Ok(Insn::Alu { width, op: Operation::Mov, dst: slot.dst, src: source(slot) });
        }
        (8, true, _) => Bits::B8,
        (16, true, _) => Bits::B16,
        (32, true, Width::W64) => Bits::B32,
        _ => return Err(Cause::Offset),
    };
    Ok(Insn::MovSx { width, bits, dst: slot.dst, src: slot.src })
}

fn byte_order(slot: &Slot, kind: Order) -> Result<Insn, Cause> {
    registers(slot, true, false)?;
    zero(slot.src == 0 && slot.offset == 0)?;
    let bits = match slot.imm {
        16 => Bits::B16,
        32 => Bits::B32,
        64 => Bits::B64,
        _ => return Err(Cause::Imm),
    };
    Ok(Insn::End { kind, bits, dst: slot.dst })
}

fn arithmetic(slot: &Slot, width: Width) -> Result<Insn, Cause> {
    match slot.opcode >> 4 {
        0 => operation(slot, width, Operation::Add),
        1 => operation(slot, width, Operation::Sub),
        2 => operation(slot, width, Operation::Mul),
        3 => division(slot, width, Operation::Div, Operation::Sdiv),
        4 => operation(slot, width, Operation::Or),
        5 => operation(slot, width, Operation::And),
        6 => operation(slot, width, Operation::Lsh),
        7 => operation(slot, width, Operation::Rsh),
        8 if slot.opcode & 8 == 0 => {
            registers(slot, true, false)?;
            zero(slot.src == 0 && slot.offset == 0 && slot.imm == 0)?;
            Ok(Insn::Neg { width, dst: slot.dst })
        }
        9 => division(slot, width, Operation::Rem, Operation::Srem),
        10 => operation(slot, width, Operation::Xor),
        11 => movement(slot, width),
        12 => operation(slot, width, Operation::Arsh),
        13 => match (width, slot.opcode & 8 != 0) {
            (Width::W32, false) => byte_order(slot, Order::Little),
            (Width::W32, true) => byte_order(slot, Order::Big),
            (Width::W64, false) => byte_order(slot, Order::Swapped),
            (Width::W64, true) => Err(Cause::Opcode),
        },
        _ => Err(Cause::Opcode),
    }
}

fn condition(code: u8) -> Result<Condition, Cause> {
    Ok(match code {
        1 => Condition::Equal,
        2 => Condition::Greater,
        3 => Condition::GreaterEqual,
        4 => Condition::AnyBit,
        5 => Condition::NotEqual,
        6 => Condition::SignedGreater,
        7 => Condition::SignedGreaterEqual,
        10 => Condition::Less,
        11 => Condition::LessEqual,
        12 => Condition::SignedLess,
        13 => Condition::SignedLessEqual,
        _ => return Err(Cause::Opcode),
    })
}

fn branch(slot: &Slot, width: Width) -> Result<Insn, Cause> {
    let cond = condition(slot.opcode >> 4)?;
    operands(slot)?;
    Ok(Insn::Branch { width, cond, dst: slot.dst, src: source(slot), off: slot.offset })
}

fn jump(slot: &Slot) -> Result<Insn, Cause> {
    match slot.opcode {
        0x05 => {
            zero(slot.dst == 0 && slot.src == 0 && slot.imm == 0)?;
            Ok(Insn::Goto { off: slot.offset })
        }
        0x85 => {
            zero(slot.dst == 0 && slot.offset == 0)?;
            if slot.src != 0 {
                return Err(Cause::Offset);
            }
            Ok(Insn::Call { helper: slot.imm })
        }
        0x95 => {
            zero(slot.dst == 0 && slot.src == 0 && slot.offset == 0 && slot.imm == 0)?;
            Ok(Insn::Exit)
        }
        _ => branch(slot, Width::W64),
    }
}

fn jump32(slot: &Slot) -> Result<Insn, Cause> {
    if slot.opcode == 0x06 {
        zero(slot.dst == 0 && slot.src == 0 && slot.offset == 0)?;
        return Ok(Insn::Goto32 { imm: slot.imm });
    }
    branch(slot, Width::W32)
}

fn wide(slot: &Slot, next: Option<Slot>) -> Result<Insn, Cause> {
    registers(slot, true, false)?;
    zero(slot.offset == 0)?;
    if let Some(second) = next {
        zero(second.opcode == 0 && second.dst == 0 && second.src == 0 && second.offset == 0)?;
        zero(slot.src != 5 || second.imm == 0)?;
    }
    if slot.src != 0 && slot.src != 5 {
        return Err(Cause::Offset);
    }
    let Some(second) = next else {
        return Err(Cause::WideCut);
    };
    if slot.src == 5 {
        return Ok(Insn::MapRef { dst: slot.dst, index: slot.imm });
    }
    let value = u64::from(slot.imm as u32) | u64::from(second.imm as u32) << 32;
    Ok(Insn::Imm64 { dst: slot.dst, value })
}

fn load(slot: &Slot) -> Result<Insn, Cause> {
    let size = size(slot.opcode);
    let signed = match (slot.opcode >> 5, size) {
        (3, _) => false,
        (4, Size::Byte | Size::Half | Size::Word) => true,
        _ => return Err(Cause::Opcode),
    };
    registers(slot, true, true)?;
    zero(slot.imm == 0)?;
    Ok(Insn::Load { size, signed, dst: slot.dst, src: slot.src, off: slot.offset })
}

fn store(slot: &Slot) -> Result<Insn, Cause> {
    if slot.opcode >> 5 != 3 {
        return Err(Cause::Opcode);
    }
    let size = size(slot.opcode);
    if slot.opcode & 7 == 2 {
        registers(slot, true, false)?;
        zero(slot.src == 0)?;
        return Ok(Insn::StoreImm { size, dst: slot.dst, off: slot.offset, imm: slot.imm });
    }
    registers(slot, true, true)?;
    zero(slot.imm == 0)?;
    Ok(Insn::StoreReg { size, dst: slot.dst, off: slot.offset, src: slot.src })
}

fn first(bytes: &[u8]) -> Result<Insn, Cause> {
    let slot = Slot::read(bytes);
    match slot.opcode & 7 {
        0 if slot.opcode == 0x18 => wide(&slot, bytes.get(8..).filter(|b| !b.is_empty()).map(Slot::read)),
        1 => load(&slot),
        2 | 3 => store(&slot),
        4 => arithmetic(&slot, Width::W32),
        5 => jump(&slot),
        6 => jump32(&slot),
        7 => arithmetic(&slot, Width::W64),
        _ => Err(Cause::Opcode),
    }
}

#[inline(never)]
pub fn decode(bytes: &[u8]) -> Result<Vec<Insn>, (usize, Cause)> {
    if bytes.is_empty() || bytes.len() % 8 != 0 || bytes.len() > 32768 {
        return Err((0, Cause::Length));
    }
    let mut insns = Vec::new();
    let mut slot = 0;
    while 8 * slot < bytes.len() {
        let insn = first(&bytes[8 * slot..]).map_err(|cause| (slot, cause))?;
        slot += insn.slots();
        insns.push(insn);
    }
    Ok(insns)
}

/// A number that follows another, seemingly at random.
fn next(seed: &mut u64) -> u64 {
    *seed = seed.wrapping_mul(6_364_136_223_846_793_005).wrapping_add(1_442_695_040_888_963_407);
    *seed >> 33
}

/// A program of 4,096 slots with every opcode, in an order seemingly at random.
pub fn mixed() -> Vec<u8> {
    let mut bytes = Vec::new();
    let mut seed = 1;
    while bytes.len() < 8 * 4096 {
        let opcode = next(&mut seed) as u8;
        let dst = (next(&mut seed) % 11) as u8;
        let src = (next(&mut seed) % 11) as u8;
        let number = next(&mut seed) as u32;
        let offset = number as u16;
        for (src, offset, imm) in [
            (src, offset, 0),
            (src, 0, 0),
            (0, 0, number),
            (0, offset, number),
            (0, 0, 16),
            (0, 0, 0),
        ] {
            for dst in [dst, 0] {
                let mut slot = vec![opcode, dst | src << 4];
                slot.extend(offset.to_le_bytes());
                slot.extend(imm.to_le_bytes());
                if opcode == 0x18 {
                    slot.extend([0, 0, 0, 0]);
                    slot.extend(number.to_le_bytes());
                }
                if decode(&slot).is_ok() && bytes.len() + slot.len() <= 8 * 4096 {
                    bytes.extend(slot);
                    break;
                }
            }
        }
    }
    bytes
}

/// A program of 4,096 slots, all `mov64 r0, 7`.
pub fn alike() -> Vec<u8> {
    [0xb7, 0, 0, 0, 7, 0, 0, 0].repeat(4096)
}
