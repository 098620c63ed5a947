//! "The kernel table": operand forms, row checks, and the decoded program.

use crate::limits::{number, Refusal, MAX_NESTING, MAX_ROWS};

/// Op bytes.
pub mod op {
    #![allow(missing_docs)]
    pub const SET: u8 = 1;
    pub const TID: u8 = 2;
    pub const COUNT: u8 = 3;
    pub const ADD: u8 = 4;
    pub const SUB: u8 = 5;
    pub const MUL: u8 = 6;
    pub const AND: u8 = 7;
    pub const OR: u8 = 8;
    pub const XOR: u8 = 9;
    pub const SHR: u8 = 10;
    pub const SAR: u8 = 11;
    pub const EQ: u8 = 12;
    pub const LT: u8 = 13;
    pub const SLT: u8 = 14;
    pub const LOAD: u8 = 16;
    pub const STORE: u8 = 17;
    pub const ATOMIC_ADD: u8 = 18;
    pub const LAUNCH_NUMBER: u8 = 19;
    pub const GLOBAL_LOAD: u8 = 20;
    pub const GLOBAL_STORE: u8 = 21;
    pub const GLOBAL_ADD: u8 = 22;
    pub const IF: u8 = 32;
    pub const ELSE: u8 = 33;
    pub const ENDIF: u8 = 34;
    pub const WHILE: u8 = 35;
    pub const ENDWHILE: u8 = 36;
    pub const BARRIER: u8 = 37;
}

/// Which bytes of a row an op uses, and how.
#[derive(Clone, Copy, Debug, PartialEq, Eq)]
enum Form {
    Unknown,
    /// d a register, a and b any byte.
    DAnyAny,
    D,
    Dab,
    Da,
    A,
    Nothing,
}

/// The form of every op byte, looked up in one table.
const FORMS: [Form; 256] = forms();

const fn forms() -> [Form; 256] {
    let mut forms = [Form::Unknown; 256];
    forms[op::SET as usize] = Form::DAnyAny;
    forms[op::TID as usize] = Form::D;
    forms[op::COUNT as usize] = Form::D;
    let mut binary = op::ADD;
    while binary <= op::SLT {
        forms[binary as usize] = Form::Dab;
        binary += 1;
    }
    forms[op::LOAD as usize] = Form::Da;
    forms[op::STORE as usize] = Form::Da;
    forms[op::ATOMIC_ADD as usize] = Form::Da;
    forms[op::LAUNCH_NUMBER as usize] = Form::D;
    forms[op::GLOBAL_LOAD as usize] = Form::Da;
    forms[op::GLOBAL_STORE as usize] = Form::Da;
    forms[op::GLOBAL_ADD as usize] = Form::Da;
    forms[op::IF as usize] = Form::A;
    forms[op::WHILE as usize] = Form::A;
    forms[op::ELSE as usize] = Form::Nothing;
    forms[op::ENDIF as usize] = Form::Nothing;
    forms[op::ENDWHILE as usize] = Form::Nothing;
    forms[op::BARRIER as usize] = Form::Nothing;
    forms
}

impl Form {
    /// Whether registers are below 16 and unused bytes 0.
    const fn accepts(self, d: u8, a: u8, b: u8) -> bool {
        match self {
            Form::Unknown => false,
            Form::DAnyAny => d < 16,
            Form::D => d < 16 && a == 0 && b == 0,
            Form::Dab => d < 16 && a < 16 && b < 16,
            Form::Da => d < 16 && a < 16 && b == 0,
            Form::A => d == 0 && a < 16 && b == 0,
            Form::Nothing => d == 0 && a == 0 && b == 0,
        }
    }
}

/// A register number, known to be below 16.
#[derive(Clone, Copy, Debug, PartialEq, Eq)]
pub(crate) struct Reg(u8);

impl Reg {
    pub(crate) const fn index(self) -> usize {
        // The mask tells the compiler what the row check has established.
        (self.0 & 15) as usize
    }
}

/// Registers of a row that works out Rd from Ra and Rb.
#[derive(Clone, Copy, Debug, PartialEq, Eq)]
pub(crate) struct Dab {
    pub d: Reg,
    pub a: Reg,
    pub b: Reg,
}

/// What a row does to cells.
#[derive(Clone, Copy, Debug, PartialEq, Eq)]
pub(crate) enum Access {
    Load,
    Store,
    Add,
}

/// A decoded row. `level` is the number of constructs around its own
/// construct: the slot of that construct's saved mask.
#[derive(Clone, Copy, Debug, PartialEq, Eq)]
pub(crate) enum Instr {
    Set {
        d: Reg,
        value: u16,
    },
    Tid {
        d: Reg,
    },
    Count {
        d: Reg,
    },
    Add(Dab),
    Sub(Dab),
    Mul(Dab),
    And(Dab),
    Or(Dab),
    Xor(Dab),
    Shr(Dab),
    Sar(Dab),
    Eq(Dab),
    Lt(Dab),
    Slt(Dab),
    Load {
        d: Reg,
        a: Reg,
    },
    Store {
        d: Reg,
        a: Reg,
    },
    AtomicAdd {
        d: Reg,
        a: Reg,
    },
    LaunchNumber {
        d: Reg,
    },
    /// An access to a global cell.
    Global {
        access: Access,
        d: Reg,
        a: Reg,
    },
    If {
        a: Reg,
        level: u8,
    },
    Else {
        level: u8,
    },
    EndIf {
        level: u8,
    },
    /// `exit` is the row after the ENDWHILE.
    While {
        a: Reg,
        level: u8,
        exit: u16,
    },
    /// `head` is the row of the WHILE.
    EndWhile {
        head: u16,
    },
    Barrier,
}

/// A table that passed the row checks, with its jumps worked out.
#[derive(Clone, Debug)]
pub(crate) struct Program {
    rows: [Instr; MAX_ROWS],
    len: usize,
}

impl Program {
    /// The rows in order.
    pub(crate) fn code(&self) -> &[Instr] {
        &self.rows[..self.len]
    }

    /// Whether there is an ATOMIC ADD row, to own cells.
    pub(crate) fn adds(&self) -> bool {
        let is_add = |instr: &Instr| matches!(instr, Instr::AtomicAdd { .. });
        self.code().iter().any(is_add)
    }
}

/// An open construct while the table is read.
#[derive(Clone, Copy)]
struct Open {
    row: usize,
    kind: Kind,
}

#[derive(Clone, Copy, PartialEq, Eq)]
enum Kind {
    If,
    /// An IF whose ELSE has been read.
    IfElse,
    While,
}

/// Checks the rows of a table (refusals 3 to 7) and decodes them. The caller
/// has checked that there are at most 256; a part row at the end isn't read.
pub(crate) fn decode(table: &[u8]) -> Result<Program, Refusal> {
    let mut decoder = Decoder::new();
    for (row, bytes) in table.chunks_exact(4).take(MAX_ROWS).enumerate() {
        let instr = decoder.row(row, [bytes[0], bytes[1], bytes[2], bytes[3]])?;
        decoder.program.rows[row] = instr;
        decoder.program.len = row + 1;
    }
    decoder.finish()
}

struct Decoder {
    program: Program,
    open: [Open; MAX_NESTING],
    depth: usize,
}

impl Decoder {
    fn new() -> Self {
        let nothing = Open {
            row: 0,
            kind: Kind::If,
        };
        Self {
            program: Program {
                rows: [Instr::Barrier; MAX_ROWS],
                len: 0,
            },
            open: [nothing; MAX_NESTING],
            depth: 0,
        }
    }

    /// One row, its refusals in the order 3, 4, then 5 or 6.
    fn row(&mut self, row: usize, [code, d, a, b]: [u8; 4]) -> Result<Instr, Refusal> {
        let form = FORMS[code as usize];
        let place = row as u32;
        Refusal::unless(form != Form::Unknown, number::UNKNOWN_OP, place)?;
        Refusal::unless(form.accepts(d, a, b), number::OPERAND, place)?;
        let value = u16::from_le_bytes([a, b]);
        let (d, a, b) = (Reg(d), Reg(a), Reg(b));
        let dab = Dab { d, a, b };
        let global = |access| Instr::Global { access, d, a };
        Ok(match code {
            op::SET => Instr::Set { d, value },
            op::TID => Instr::Tid { d },
            op::COUNT => Instr::Count { d },
            op::ADD => Instr::Add(dab),
            op::SUB => Instr::Sub(dab),
            op::MUL => Instr::Mul(dab),
            op::AND => Instr::And(dab),
            op::OR => Instr::Or(dab),
            op::XOR => Instr::Xor(dab),
            op::SHR => Instr::Shr(dab),
            op::SAR => Instr::Sar(dab),
            op::EQ => Instr::Eq(dab),
            op::LT => Instr::Lt(dab),
            op::SLT => Instr::Slt(dab),
            op::LOAD => Instr::Load { d, a },
            op::STORE => Instr::Store { d, a },
            op::ATOMIC_ADD => Instr::AtomicAdd { d, a },
            op::LAUNCH_NUMBER => Instr::LaunchNumber { d },
            op::GLOBAL_LOAD => global(Access::Load),
            op::GLOBAL_STORE => global(Access::Store),
            op::GLOBAL_ADD => global(Access::Add),
            op::IF => self.begin_if(row, a)?,
            op::ELSE => self.read_else(row)?,
            op::ENDIF => self.end_if(row)?,
            op::WHILE => self.begin_while(row, a)?,
            op::ENDWHILE => self.end_while(row)?,
            _ => Instr::Barrier,
        })
    }

    fn begin_if(&mut self, row: usize, a: Reg) -> Result<Instr, Refusal> {
        let level = self.begin(row, Kind::If)?;
        Ok(Instr::If { a, level })
    }

    /// The exit is filled in when the ENDWHILE is read.
    fn begin_while(&mut self, row: usize, a: Reg) -> Result<Instr, Refusal> {
        let level = self.begin(row, Kind::While)?;
        Ok(Instr::While { a, level, exit: 0 })
    }

    fn read_else(&mut self, row: usize) -> Result<Instr, Refusal> {
        self.innermost(row, &[Kind::If])?;
        self.open[self.depth - 1].kind = Kind::IfElse;
        let level = self.depth as u8 - 1;
        Ok(Instr::Else { level })
    }

    fn end_if(&mut self, row: usize) -> Result<Instr, Refusal> {
        self.innermost(row, &[Kind::If, Kind::IfElse])?;
        self.depth -= 1;
        let level = self.depth as u8;
        Ok(Instr::EndIf { level })
    }

    fn end_while(&mut self, row: usize) -> Result<Instr, Refusal> {
        let head = self.innermost(row, &[Kind::While])?.row;
        self.depth -= 1;
        if let Instr::While { exit, .. } = &mut self.program.rows[head] {
            *exit = row as u16 + 1;
        }
        Ok(Instr::EndWhile { head: head as u16 })
    }

    /// Opens a construct, unless it would be the ninth nesting, and gives its
    /// level.
    fn begin(&mut self, row: usize, kind: Kind) -> Result<u8, Refusal> {
        let level = self.depth;
        Refusal::unless(level < MAX_NESTING, number::NESTING, row as u32)?;
        self.open[level] = Open { row, kind };
        self.depth += 1;
        Ok(level as u8)
    }

    /// The innermost open construct, which must be of a kind that fits.
    fn innermost(&self, row: usize, fitting: &[Kind]) -> Result<Open, Refusal> {
        self.open[..self.depth]
            .last()
            .copied()
            .filter(|open| fitting.contains(&open.kind))
            .ok_or(Refusal::new(number::MISFIT, row as u32))
    }

    fn finish(self) -> Result<Program, Refusal> {
        match self.open[..self.depth].last() {
            None => Ok(self.program),
            Some(open) => Err(Refusal::new(number::LEFT_OPEN, open.row as u32)),
        }
    }
}

#[cfg(test)]
mod tests {
    use super::*;

    #[test]
    fn forms_cover_exactly_the_known_ops() {
        let known: Vec<usize> = (0..256).filter(|&i| FORMS[i] != Form::Unknown).collect();
        let expected: Vec<usize> = (1..=14).chain(16..=22).chain(32..=37).collect();
        assert_eq!(known, expected);
    }

    #[test]
    fn jumps_are_worked_out() {
        let table = [35, 0, 1, 0, 35, 0, 2, 0, 36, 0, 0, 0, 36, 0, 0, 0];
        let program = decode(&table).unwrap();
        let heads: Vec<Instr> = program.code().to_vec();
        let (a, level) = (Reg(1), 0);
        assert_eq!(heads[0], Instr::While { a, level, exit: 4 });
        let (a, level) = (Reg(2), 1);
        assert_eq!(heads[1], Instr::While { a, level, exit: 3 });
        assert_eq!(heads[2], Instr::EndWhile { head: 1 });
        assert_eq!(heads[3], Instr::EndWhile { head: 0 });
    }
}
