//! A plain interpreter of RV32IM in ordinary Rust, as one writes it: pages of 4,096 bytes, of which each says whether it is wholly
//! readable, writable or text, each instruction decoded at its step, and a meter of what the steps cost.

#[derive(Clone, Copy, PartialEq)]
enum Use {
    Writable,
    Text,
    Mixed,
}

struct Page {
    bytes: Vec<u8>,
    whole: Use,
}

struct Block {
    from: u32,
    len: u32,
    flags: u32,
}

struct Range {
    from: u32,
    to: u32,
}

impl Range {
    fn holds(&self, at: u32) -> bool {
        self.from <= at && at < self.to
    }
}

struct Memory {
    groups: Vec<Option<Vec<Option<Page>>>>,
    blocks: Vec<Block>,
    text: Vec<Range>,
    keyed: Option<Range>,
}

const STACK: Range = Range {
    from: 0x7FFC_0000,
    to: 0x8000_0000,
};

impl Memory {
    /// The stack, and a segment of these bytes, of which all are text.
    fn new(from: u32, bytes: &[u8], flags: u32) -> Memory {
        let len = bytes.len() as u32;
        let to = from + len;
        let mut memory = Memory {
            groups: (0..1024).map(|_| None).collect(),
            blocks: vec![Block { from, len, flags }],
            text: vec![Range { from, to }],
            keyed: None,
        };
        for at in (STACK.from..STACK.to).step_by(4096) {
            memory.add_page(at, Use::Writable);
        }
        for at in (from & !4095..to).step_by(4096) {
            let inside = from <= at && at + 4096 <= to;
            memory.add_page(at, if inside { Use::Text } else { Use::Mixed });
        }
        for (at, byte) in (from..).zip(bytes) {
            memory.set_byte(at, *byte);
        }
        memory
    }

    fn add_page(&mut self, at: u32, whole: Use) {
        let group = &mut self.groups[(at >> 22) as usize];
        let pages = group.get_or_insert_with(|| (0..1024).map(|_| None).collect());
        let bytes = vec![0; 4096];
        pages[(at >> 12 & 1023) as usize] = Some(Page { bytes, whole });
    }

    fn page(&self, at: u32) -> Option<&Page> {
        let group = self.groups[(at >> 22) as usize].as_ref()?;
        group[(at >> 12 & 1023) as usize].as_ref()
    }

    fn page_mut(&mut self, at: u32) -> Option<&mut Page> {
        let group = self.groups[(at >> 22) as usize].as_mut()?;
        group[(at >> 12 & 1023) as usize].as_mut()
    }

    fn whole(&self, at: u32) -> Use {
        self.page(at).map_or(Use::Mixed, |page| page.whole)
    }

    fn byte(&self, at: u32) -> u8 {
        self.page(at)
            .map_or(0, |page| page.bytes[(at & 4095) as usize])
    }

    fn set_byte(&mut self, at: u32, value: u8) {
        if let Some(page) = self.page_mut(at) {
            page.bytes[(at & 4095) as usize] = value;
        }
    }

    /// The word of a multiple of 4.
    fn word(&self, at: u32) -> u32 {
        let k = (at & 4095) as usize;
        self.page(at).map_or(0, |page| {
            u32::from_le_bytes(page.bytes[k..k + 4].try_into().unwrap())
        })
    }

    fn set_word(&mut self, at: u32, value: u32) {
        let k = (at & 4095) as usize;
        if let Some(page) = self.page_mut(at) {
            page.bytes[k..k + 4].copy_from_slice(&value.to_le_bytes());
        }
    }

    fn allows(&self, flag: u32, at: u32) -> bool {
        let k = self.blocks.partition_point(|block| block.from <= at);
        k > 0 && {
            let block = &self.blocks[k - 1];
            at - block.from < block.len && block.flags & 0x0010_0000 == 0 && block.flags & flag != 0
        }
    }

    fn in_text(&self, at: u32, width: u32) -> bool {
        let k = self.text.partition_point(|range| range.from <= at);
        k > 0 && at + (width - 1) < self.text[k - 1].to
    }

    fn may_read(&self, at: u32) -> bool {
        match self.whole(at) {
            Use::Mixed => STACK.holds(at) || self.allows(4, at) && !self.in_text(at, 1),
            whole => whole == Use::Writable,
        }
    }

    fn may_write(&self, at: u32) -> bool {
        match self.whole(at) {
            Use::Mixed => STACK.holds(at) || self.allows(2, at) && !self.in_text(at, 1),
            whole => whole == Use::Writable,
        }
    }

    fn may_fetch_word(&self, at: u32) -> bool {
        match self.whole(at) {
            Use::Mixed => self.in_text(at, 4),
            whole => whole == Use::Text,
        }
    }

    fn is_keyed(&self, at: u32) -> bool {
        self.keyed.as_ref().is_some_and(|range| range.holds(at))
    }
}

#[derive(Clone, Copy, PartialEq)]
enum Class {
    Alu,
    Load,
    Store,
    Taken,
    Untaken,
    Jump,
    Mul,
    Div,
    Ecall,
    Fence,
}

#[derive(Clone, Copy, PartialEq)]
enum Move {
    Local,
    Call,
    Return,
}

#[derive(Clone, Copy)]
#[allow(dead_code)]
struct Stepped {
    pc: u32,
    next: u32,
    class: Class,
    moved: Move,
    keyed: bool,
    port: Option<u8>,
}

#[derive(Clone, Copy)]
#[allow(dead_code)]
enum StepEnd {
    Went(Stepped),
    Exited(Stepped, u8),
    Trapped(Trap, u32),
}

#[derive(Clone, Copy)]
enum Trap {
    Breakpoint,
    IllegalWord,
    FetchFault,
    MisalignedTarget,
    LoadMisaligned,
    StoreMisaligned,
    LoadFault,
    StoreFault,
}

#[derive(Clone, Copy)]
enum Instr {
    Lui {
        rd: u8,
        imm: u32,
    },
    Auipc {
        rd: u8,
        imm: u32,
    },
    Jal {
        rd: u8,
        offset: i32,
    },
    Jalr {
        rd: u8,
        rs1: u8,
        offset: i32,
    },
    Branch {
        op: u32,
        rs1: u8,
        rs2: u8,
        offset: i32,
    },
    Load {
        op: u32,
        rd: u8,
        rs1: u8,
        offset: i32,
    },
    Store {
        op: u32,
        rs1: u8,
        rs2: u8,
        offset: i32,
    },
    Imm {
        op: Op,
        rd: u8,
        rs1: u8,
        imm: i32,
    },
    Reg {
        op: Op,
        rd: u8,
        rs1: u8,
        rs2: u8,
    },
    Fence,
    Ecall,
    Ebreak,
}

#[derive(Clone, Copy, PartialEq)]
enum Op {
    Add,
    Sub,
    Sll,
    Slt,
    Sltu,
    Xor,
    Srl,
    Sra,
    Or,
    And,
    Mul,
    Mulh,
    Mulhsu,
    Mulhu,
    Div,
    Divu,
    Rem,
    Remu,
}

const PLAIN: [Op; 8] = [
    Op::Add,
    Op::Sll,
    Op::Slt,
    Op::Sltu,
    Op::Xor,
    Op::Srl,
    Op::Or,
    Op::And,
];
const PRODUCT: [Op; 8] = [
    Op::Mul,
    Op::Mulh,
    Op::Mulhsu,
    Op::Mulhu,
    Op::Div,
    Op::Divu,
    Op::Rem,
    Op::Remu,
];

fn bits(word: u32, low: u32, count: u32) -> u32 {
    (word >> low) & ((1 << count) - 1)
}

fn signed(number: u32, half: u32) -> i32 {
    if number < half {
        number as i32
    } else {
        number as i32 - 2 * half as i32
    }
}

fn decode(word: u32) -> Option<Instr> {
    let (rd, rs1, rs2) = (
        bits(word, 7, 5) as u8,
        bits(word, 15, 5) as u8,
        bits(word, 20, 5) as u8,
    );
    let (funct3, funct7) = (bits(word, 12, 3), bits(word, 25, 7));
    let i_offset = signed(bits(word, 20, 12), 1 << 11);
    let imm = |op, imm| Some(Instr::Imm { op, rd, rs1, imm });
    let reg = |op| Some(Instr::Reg { op, rd, rs1, rs2 });
    match bits(word, 0, 7) {
        0x37 => Some(Instr::Lui {
            rd,
            imm: bits(word, 12, 20) << 12,
        }),
        0x17 => Some(Instr::Auipc {
            rd,
            imm: bits(word, 12, 20) << 12,
        }),
        0x6F => {
            let high = bits(word, 31, 1) << 20 | bits(word, 12, 8) << 12;
            let low = bits(word, 20, 1) << 11 | bits(word, 21, 10) << 1;
            Some(Instr::Jal {
                rd,
                offset: signed(high | low, 1 << 20),
            })
        }
        0x67 if funct3 == 0 => Some(Instr::Jalr {
            rd,
            rs1,
            offset: i_offset,
        }),
        0x63 if funct3 != 2 && funct3 != 3 => {
            let high = bits(word, 31, 1) << 12 | bits(word, 7, 1) << 11;
            let low = bits(word, 25, 6) << 5 | bits(word, 8, 4) << 1;
            Some(Instr::Branch {
                op: funct3,
                rs1,
                rs2,
                offset: signed(high | low, 1 << 12),
            })
        }
        0x03 if funct3 < 6 && funct3 != 3 => Some(Instr::Load {
            op: funct3,
            rd,
            rs1,
            offset: i_offset,
        }),
        0x23 if funct3 < 3 => {
            let offset = signed(bits(word, 25, 7) << 5 | bits(word, 7, 5), 1 << 11);
            Some(Instr::Store {
                op: funct3,
                rs1,
                rs2,
                offset,
            })
        }
        0x13 => match (funct3, funct7) {
            (1, 0) => imm(Op::Sll, i32::from(rs2)),
            (5, 0) => imm(Op::Srl, i32::from(rs2)),
            (5, 0x20) => imm(Op::Sra, i32::from(rs2)),
            (1 | 5, _) => None,
            _ => imm(PLAIN[funct3 as usize], i_offset),
        },
        0x33 => match (funct7, funct3) {
            (0, _) => reg(PLAIN[funct3 as usize]),
            (0x20, 0) => reg(Op::Sub),
            (0x20, 5) => reg(Op::Sra),
            (1, _) => reg(PRODUCT[funct3 as usize]),
            _ => None,
        },
        0x0F if funct3 == 0 => Some(Instr::Fence),
        0x73 if word == 0x73 => Some(Instr::Ecall),
        0x73 if word == 0x0010_0073 => Some(Instr::Ebreak),
        _ => None,
    }
}

fn class_of(instr: &Instr, taken: bool) -> Class {
    match *instr {
        Instr::Lui { .. } | Instr::Auipc { .. } | Instr::Imm { .. } => Class::Alu,
        Instr::Jal { .. } | Instr::Jalr { .. } => Class::Jump,
        Instr::Branch { .. } if taken => Class::Taken,
        Instr::Branch { .. } => Class::Untaken,
        Instr::Load { .. } => Class::Load,
        Instr::Store { .. } => Class::Store,
        Instr::Reg { op, .. } if PRODUCT[..4].contains(&op) => Class::Mul,
        Instr::Reg { op, .. } if PRODUCT[4..].contains(&op) => Class::Div,
        Instr::Reg { .. } => Class::Alu,
        Instr::Fence => Class::Fence,
        Instr::Ecall | Instr::Ebreak => Class::Ecall,
    }
}

fn result(op: Op, a: u32, b: u32) -> u32 {
    let (x, y) = (a as i32, b as i32);
    match op {
        Op::Add => a.wrapping_add(b),
        Op::Sub => a.wrapping_sub(b),
        Op::Sll => a.wrapping_shl(b),
        Op::Slt => u32::from(x < y),
        Op::Sltu => u32::from(a < b),
        Op::Xor => a ^ b,
        Op::Srl => a.wrapping_shr(b),
        Op::Sra => x.wrapping_shr(b) as u32,
        Op::Or => a | b,
        Op::And => a & b,
        Op::Mul => a.wrapping_mul(b),
        Op::Mulh => ((i64::from(x) * i64::from(y)) >> 32) as u32,
        Op::Mulhsu => ((i64::from(x) * i64::from(b)) >> 32) as u32,
        Op::Mulhu => ((u64::from(a) * u64::from(b)) >> 32) as u32,
        Op::Div | Op::Divu if b == 0 => u32::MAX,
        Op::Rem | Op::Remu if b == 0 => a,
        Op::Div => x.wrapping_div(y) as u32,
        Op::Divu => a / b,
        Op::Rem => x.wrapping_rem(y) as u32,
        Op::Remu => a % b,
    }
}

struct Machine {
    pc: u32,
    regs: [u32; 32],
    memory: Memory,
    window: [u32; 512],
    levels: u8,
    input: Vec<u8>,
    used: usize,
    output: Vec<u8>,
}

impl Machine {
    fn can_fetch(&self, pc: u32) -> bool {
        pc % 4 == 0
            && (self.memory.may_fetch_word(pc) || (0..4).all(|k| self.memory.is_keyed(pc + k)))
    }

    // A word at a multiple of 4 lies in one page.
    fn is_whole_word(&self, at: u32, width: u32) -> bool {
        width == 4 && at % 4 == 0 && self.memory.whole(at) == Use::Writable
    }

    fn can_read(&self, at: u32, width: u32) -> bool {
        self.is_whole_word(at, width)
            || (0..width).all(|k| {
                self.memory.may_read(at + k)
                    || self.memory.is_keyed(self.pc) && self.memory.is_keyed(at + k)
            })
    }

    fn can_write(&self, at: u32, width: u32) -> bool {
        self.is_whole_word(at, width) || (0..width).all(|k| self.memory.may_write(at + k))
    }

    fn uses_window(&self, at: u32, width: u32) -> bool {
        self.memory.is_keyed(self.pc) && width == 4 && at >= 0xFFFF_F800
    }

    fn stepped(&self, instr: &Instr, taken: bool, port: Option<u8>, next: u32) -> Stepped {
        let moved = match *instr {
            Instr::Jal { rd: 1, .. } => Move::Call,
            Instr::Jalr {
                rd: 0,
                rs1: 1,
                offset: 0,
            } => Move::Return,
            _ => Move::Local,
        };
        Stepped {
            pc: self.pc,
            next,
            class: class_of(instr, taken),
            moved,
            keyed: self.memory.is_keyed(self.pc),
            port,
        }
    }

    fn set_reg(&mut self, rd: u8, value: u32) {
        if rd != 0 {
            self.regs[rd as usize] = value;
        }
    }

    fn set(&mut self, instr: &Instr, rd: u8, value: u32) -> StepEnd {
        let next = self.pc.wrapping_add(4);
        let done = self.stepped(instr, false, None, next);
        self.set_reg(rd, value);
        self.pc = next;
        StepEnd::Went(done)
    }

    fn go(&mut self, instr: &Instr, taken: bool, target: u32) -> StepEnd {
        if target % 4 != 0 {
            return StepEnd::Trapped(Trap::MisalignedTarget, target);
        }
        let done = self.stepped(instr, taken, None, target);
        self.pc = target;
        StepEnd::Went(done)
    }

    fn jump(&mut self, instr: &Instr, rd: u8, target: u32) -> StepEnd {
        let next = self.pc.wrapping_add(4);
        let end = self.go(instr, false, target);
        if let StepEnd::Went(_) = end {
            self.set_reg(rd, next);
        }
        end
    }

    fn load(&mut self, instr: &Instr, op: u32, rd: u8, at: u32) -> StepEnd {
        let width = 1 << (op & 3);
        if at % width != 0 {
            return StepEnd::Trapped(Trap::LoadMisaligned, at);
        }
        if self.uses_window(at, width) {
            return self.set(instr, rd, self.window[((at - 0xFFFF_F800) / 4) as usize]);
        }
        if !self.can_read(at, width) {
            return StepEnd::Trapped(Trap::LoadFault, at);
        }
        let byte = |k| self.memory.byte(at + k);
        let value = match op {
            0 => byte(0) as i8 as u32,
            1 => i16::from_le_bytes([byte(0), byte(1)]) as u32,
            2 => self.memory.word(at),
            4 => u32::from(byte(0)),
            _ => u32::from(u16::from_le_bytes([byte(0), byte(1)])),
        };
        self.set(instr, rd, value)
    }

    fn store_word(&mut self, instr: &Instr, at: u32, value: u32) -> StepEnd {
        let index = ((at - 0xFFFF_F800) / 4) as usize;
        let port = match index {
            511 if value < u32::from(self.levels) => Some(value as u8),
            511 => return StepEnd::Trapped(Trap::StoreFault, at),
            _ => None,
        };
        let next = self.pc.wrapping_add(4);
        let done = self.stepped(instr, false, port, next);
        self.window[index] = value;
        self.pc = next;
        StepEnd::Went(done)
    }

    fn store(&mut self, instr: &Instr, op: u32, at: u32, value: u32) -> StepEnd {
        let width = 1 << op;
        if at % width != 0 {
            return StepEnd::Trapped(Trap::StoreMisaligned, at);
        }
        if self.uses_window(at, width) {
            return self.store_word(instr, at, value);
        }
        if !self.can_write(at, width) {
            return StepEnd::Trapped(Trap::StoreFault, at);
        }
        let next = self.pc.wrapping_add(4);
        let done = self.stepped(instr, false, None, next);
        if width == 4 {
            self.memory.set_word(at, value);
        } else {
            for (at, byte) in (at..).zip(value.to_le_bytes()).take(width as usize) {
                self.memory.set_byte(at, byte);
            }
        }
        self.pc = next;
        StepEnd::Went(done)
    }

    fn serve(&mut self) {
        let (at, end) = (self.regs[11], u64::from(self.regs[11]));
        match self.regs[17] {
            63 if self.regs[10] != 0 => self.regs[10] = 0xFFFF_FFF7,
            63 => {
                let count = self.regs[12].min((self.input.len() - self.used).min(256) as u32);
                if end + u64::from(count) > 1 << 32 || !self.can_write(at, count) {
                    self.regs[10] = 0xFFFF_FFF2;
                    return;
                }
                for k in 0..count {
                    self.memory.set_byte(at + k, self.input[self.used]);
                    self.used += 1;
                }
                self.regs[10] = count;
            }
            64 if self.regs[10] != 1 => self.regs[10] = 0xFFFF_FFF7,
            64 => {
                let count = self.regs[12].min(((1 << 20) - self.output.len()).min(256) as u32);
                if end + u64::from(count) > 1 << 32 || !self.can_read(at, count) {
                    self.regs[10] = 0xFFFF_FFF2;
                    return;
                }
                for k in 0..count {
                    self.output.push(self.memory.byte(at + k));
                }
                self.regs[10] = count;
            }
            _ => self.regs[10] = 0xFFFF_FFDA,
        }
    }

    fn perform(&mut self, instr: &Instr) -> StepEnd {
        let (pc, regs) = (self.pc, &self.regs);
        match *instr {
            Instr::Lui { rd, imm } => self.set(instr, rd, imm),
            Instr::Auipc { rd, imm } => self.set(instr, rd, pc.wrapping_add(imm)),
            Instr::Jal { rd, offset } => self.jump(instr, rd, pc.wrapping_add_signed(offset)),
            Instr::Jalr { rd, rs1, offset } => {
                let to = regs[rs1 as usize].wrapping_add_signed(offset);
                self.jump(instr, rd, to & !1)
            }
            Instr::Branch {
                op,
                rs1,
                rs2,
                offset,
            } => {
                let (a, b) = (regs[rs1 as usize], regs[rs2 as usize]);
                let taken = match op {
                    0 => a == b,
                    1 => a != b,
                    4 => (a as i32) < b as i32,
                    5 => a as i32 >= b as i32,
                    6 => a < b,
                    _ => a >= b,
                };
                let target = if taken {
                    pc.wrapping_add_signed(offset)
                } else {
                    pc.wrapping_add(4)
                };
                self.go(instr, taken, target)
            }
            Instr::Load {
                op,
                rd,
                rs1,
                offset,
            } => self.load(
                instr,
                op,
                rd,
                regs[rs1 as usize].wrapping_add_signed(offset),
            ),
            Instr::Store {
                op,
                rs1,
                rs2,
                offset,
            } => {
                let (at, value) = (
                    regs[rs1 as usize].wrapping_add_signed(offset),
                    regs[rs2 as usize],
                );
                self.store(instr, op, at, value)
            }
            Instr::Imm { op, rd, rs1, imm } => {
                self.set(instr, rd, result(op, regs[rs1 as usize], imm as u32))
            }
            Instr::Reg { op, rd, rs1, rs2 } => self.set(
                instr,
                rd,
                result(op, regs[rs1 as usize], regs[rs2 as usize]),
            ),
            Instr::Fence => self.set(instr, 0, 0),
            Instr::Ecall if self.regs[17] == 93 || self.regs[17] == 94 => {
                StepEnd::Exited(self.stepped(instr, false, None, pc), self.regs[10] as u8)
            }
            Instr::Ecall => {
                let end = self.set(instr, 0, 0);
                self.serve();
                end
            }
            Instr::Ebreak => StepEnd::Trapped(Trap::Breakpoint, pc),
        }
    }
}

fn step(machine: &mut Machine) -> StepEnd {
    let at = machine.pc;
    if !machine.can_fetch(at) {
        return StepEnd::Trapped(Trap::FetchFault, at);
    }
    match decode(machine.memory.word(at)) {
        Some(instr) => machine.perform(&instr),
        None => StepEnd::Trapped(Trap::IllegalWord, at),
    }
}

const WORDS: [u32; 8] = [
    0x0020_02B7,
    0xFE01_2303,
    0x0013_0313,
    0xFE61_2023,
    0xFFF2_8293,
    0xFE02_98E3,
    0x05D0_0893,
    0x0000_0073,
];

/// What the steps of a run cost, as the meter of power_model adds it up.
#[derive(Default, Debug)]
struct Meter {
    level: u8,
    steps: u64,
    cycles: u64,
    time: u128,
    energy: u128,
    switches: u64,
    keyed: u64,
}

// Cycles by class, and the periods and energies by level, of the machine file of crates/scale_tool/data.
const PERIODS: [u32; 3] = [4, 2, 1];
const ENERGIES: [u32; 3] = [1, 3, 8];

fn cost_of(class: Class) -> u16 {
    match class {
        Class::Alu | Class::Store | Class::Untaken | Class::Fence => 1,
        Class::Load | Class::Taken | Class::Jump => 2,
        Class::Mul => 3,
        Class::Div => 10,
        Class::Ecall => 5,
    }
}

impl Meter {
    fn add(&mut self, step: &Stepped) {
        let cost = cost_of(step.class);
        let before = self.level;
        let after = step.port.unwrap_or(before);
        let switch = u64::from(after != before);
        self.steps += 1;
        self.cycles += u64::from(cost);
        self.time +=
            u128::from(u64::from(cost) * u64::from(PERIODS[before as usize]) + 10 * switch);
        self.energy +=
            u128::from(u64::from(cost) * u64::from(ENERGIES[before as usize]) + 20 * switch);
        self.switches += switch;
        self.keyed += if step.keyed { u64::from(cost) } else { 0 };
        self.level = after;
    }
}

/// Counts down from so many times 4,096 as the argument says, and prices the steps.
fn main() {
    let argument = std::env::args().nth(1);
    let number: u32 = argument.and_then(|word| word.parse().ok()).unwrap_or(1);
    let mut words = WORDS;
    words[0] = number << 12 | 0x2B7;
    let bytes: Vec<u8> = words.iter().flat_map(|word| word.to_le_bytes()).collect();
    let mut machine = Machine {
        pc: 0x1_0000,
        regs: [0; 32],
        memory: Memory::new(0x1_0000, &bytes, 5),
        window: [0; 512],
        levels: 3,
        input: Vec::new(),
        used: 0,
        output: Vec::with_capacity(1 << 20),
    };
    machine.regs[2] = 0x7FFF_FFF0;
    machine.window[511] = 2;
    let mut meter = Meter {
        level: 2,
        ..Meter::default()
    };
    loop {
        match step(&mut machine) {
            StepEnd::Went(done) => meter.add(&done),
            StepEnd::Exited(done, _) => {
                meter.add(&done);
                break;
            }
            StepEnd::Trapped(..) => break,
        }
    }
    println!("{meter:?}");
}
