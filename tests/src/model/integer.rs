//! The integer operations: word and PSW.

use super::fields::psw::{AV, C, SAV, SV, V};
use super::operations::Operation::{self, *};

/// PSW with V, AV and their sticky flags. AV is that of the exact result's low word, whether it is the word written or not.
fn flagged(exact: i64, overflow: bool, psw: u32) -> u32 {
    let mut psw = psw & !(V | AV);
    if overflow {
        psw |= V | SV;
    }
    if advanced(exact as u32) {
        psw |= AV | SAV;
    }
    psw
}

/// Bit 31 against bit 30.
pub fn advanced(word: u32) -> bool {
    (word ^ word << 1) >> 31 == 1
}

fn wrapped(exact: i64, psw: u32) -> (u32, u32) {
    (exact as u32, flagged(exact, exact != exact as i32 as i64, psw))
}

fn saturated(exact: i64, least: i64, most: i64, psw: u32) -> (u32, u32) {
    let held = exact.clamp(least, most);
    (held as u32, flagged(exact, held != exact, psw))
}

fn signed(exact: i64, psw: u32) -> (u32, u32) {
    saturated(exact, i32::MIN as i64, i32::MAX as i64, psw)
}

fn unsigned(exact: i64, psw: u32) -> (u32, u32) {
    saturated(exact, 0, u32::MAX as i64, psw)
}

fn with_carry(carry: bool, psw: u32) -> u32 {
    psw & !C | (carry as u32) << 31
}

/// x + y + carry in, with C as the adder's carry out: a subtraction hands in the complement of its second operand.
fn added(x: u32, y: u32, carry: u32, psw: u32) -> (u32, u32) {
    let out = x as u64 + y as u64 + carry as u64;
    let exact = x as i32 as i64 + y as i32 as i64 + carry as i64;
    wrapped(exact, with_carry(out >> 32 == 1, psw))
}

/// The signed low six bits.
fn shift_count(y: u32) -> i32 {
    (y << 26) as i32 >> 26
}

fn sh(x: u32, y: u32) -> u32 {
    let count = shift_count(y);
    let shifted = if count >= 0 { (x as u64) << count } else { x as u64 >> -count };
    shifted as u32
}

fn sha(x: u32, y: u32, psw: u32) -> (u32, u32) {
    let count = shift_count(y);
    let exact = x as i32 as i64;
    if count >= 0 {
        let lost = (x as u64) << count >> 32;
        wrapped(exact << count, with_carry(lost != 0, psw))
    } else {
        let lost = x as u64 & ((1 << -count) - 1);
        wrapped(exact >> -count, with_carry(lost != 0, psw))
    }
}

/// Word and PSW of ADD to MOV; x is D[a], y the second operand.
#[inline(always)]
pub fn compute(operation: Operation, x: u32, y: u32, psw: u32) -> (u32, u32) {
    let (sx, sy) = (x as i32 as i64, y as i32 as i64);
    let (ux, uy) = (x as i64, y as i64);
    let carry = psw >> 31;
    let word = match operation {
        Add => return wrapped(sx + sy, psw),
        Sub => return wrapped(sx - sy, psw),
        Rsub => return wrapped(sy - sx, psw),
        Addx => return added(x, y, 0, psw),
        Addc => return added(x, y, carry, psw),
        Subx => return added(x, !y, 1, psw),
        Subc => return added(x, !y, carry, psw),
        Adds => return signed(sx + sy, psw),
        AddsU => return unsigned(ux + uy, psw),
        Subs => return signed(sx - sy, psw),
        SubsU => return unsigned(ux - uy, psw),
        Mul => return wrapped(sx * sy, psw),
        Sha => return sha(x, y, psw),
        Abs => return wrapped(sx.abs(), psw),
        Absdif => return wrapped((sx - sy).abs(), psw),
        And => x & y,
        Or => x | y,
        Xor => x ^ y,
        Nand => !(x & y),
        Nor => !(x | y),
        Xnor => !(x ^ y),
        Andn => x & !y,
        Orn => x | !y,
        Sh => sh(x, y),
        Min => sx.min(sy) as u32,
        MinU => x.min(y),
        Max => sx.max(sy) as u32,
        MaxU => x.max(y),
        Eq => (x == y) as u32,
        Ne => (x != y) as u32,
        Lt => (sx < sy) as u32,
        LtU => (x < y) as u32,
        Ge => (sx >= sy) as u32,
        GeU => (x >= y) as u32,
        Clz => x.leading_zeros(),
        Clo => x.leading_ones(),
        Cls => (x ^ (x as i32 >> 31) as u32).leading_zeros() - 1,
        Mov => y,
        _ => unreachable!("no integer operation"),
    };
    (word, psw)
}
