//! Rows by name.

use checker::op;

/// Op, d, a, b.
pub type Row = [u8; 4];

pub const ELSE: Row = [op::ELSE, 0, 0, 0];
pub const ENDIF: Row = [op::ENDIF, 0, 0, 0];
pub const ENDWHILE: Row = [op::ENDWHILE, 0, 0, 0];
pub const BARRIER: Row = [op::BARRIER, 0, 0, 0];

pub fn set(d: u8, value: u32) -> Row {
    let [a, b, ..] = value.to_le_bytes();
    [op::SET, d, a, b]
}

pub fn tid(d: u8) -> Row {
    [op::TID, d, 0, 0]
}

pub fn count(d: u8) -> Row {
    [op::COUNT, d, 0, 0]
}

pub fn add(d: u8, a: u8, b: u8) -> Row {
    [op::ADD, d, a, b]
}

pub fn sub(d: u8, a: u8, b: u8) -> Row {
    [op::SUB, d, a, b]
}

pub fn mul(d: u8, a: u8, b: u8) -> Row {
    [op::MUL, d, a, b]
}

pub fn and(d: u8, a: u8, b: u8) -> Row {
    [op::AND, d, a, b]
}

pub fn shr(d: u8, a: u8, b: u8) -> Row {
    [op::SHR, d, a, b]
}

pub fn eq(d: u8, a: u8, b: u8) -> Row {
    [op::EQ, d, a, b]
}

pub fn lt(d: u8, a: u8, b: u8) -> Row {
    [op::LT, d, a, b]
}

/// Rd = cell numbered Ra.
pub fn load(d: u8, a: u8) -> Row {
    [op::LOAD, d, a, 0]
}

/// Cell numbered Rd = Ra.
pub fn store(d: u8, a: u8) -> Row {
    [op::STORE, d, a, 0]
}

/// The cell numbered Rd grows by Ra.
pub fn atomic_add(d: u8, a: u8) -> Row {
    [op::ATOMIC_ADD, d, a, 0]
}

/// Rd = the thread's number in the launch.
pub fn launch_number(d: u8) -> Row {
    [op::LAUNCH_NUMBER, d, 0, 0]
}

/// Rd = global cell numbered Ra.
pub fn global_load(d: u8, a: u8) -> Row {
    [op::GLOBAL_LOAD, d, a, 0]
}

/// Global cell numbered Rd = Ra.
pub fn global_store(d: u8, a: u8) -> Row {
    [op::GLOBAL_STORE, d, a, 0]
}

/// The global cell numbered Rd grows by Ra.
pub fn global_add(d: u8, a: u8) -> Row {
    [op::GLOBAL_ADD, d, a, 0]
}

pub const fn begin_if(a: u8) -> Row {
    [op::IF, 0, a, 0]
}

pub fn begin_while(a: u8) -> Row {
    [op::WHILE, 0, a, 0]
}
