//! A program in other lengths.

use crate::generate::draw::Draw;
use crate::model::image::{Body, Record};
use crate::model::operations::Operation::{self, *};

/// Whether an operation goes to PC plus its immediate.
pub fn is_relative(op: Operation) -> bool {
    matches!(op, J | Jl | Jeq | Jne | Jlt | JltU | Jge | JgeU | Loop | Call)
}

/// The same program with some records short: each jump and call leads to the record that it led to.
pub fn relaid(body: &Body, short: impl Fn(usize) -> bool) -> Body {
    let before = body.addresses();
    let shortened = |(k, record): (usize, &Record)| if short(k) { record.short() } else { *record };
    let mut relaid = Body { load: body.load, records: body.records.iter().enumerate().map(shortened).collect() };
    let after = relaid.addresses();
    for (k, record) in relaid.records.iter_mut().enumerate() {
        if is_relative(Operation::ALL[body.records[k].op as usize]) {
            let target = before[k].wrapping_add(record.imm);
            let place = before.binary_search(&target).expect("a jump to a record");
            record.imm = after[place].wrapping_sub(after[k]);
        }
    }
    relaid
}

/// Which of so many records are short, half of them, by a seed.
pub fn half(count: usize) -> Vec<bool> {
    let mut short = vec![false; count];
    short[..count / 2].fill(true);
    Draw::new(2).shuffle(&mut short);
    short
}

/// The same with half of the records short.
pub fn half_short(body: &Body) -> Body {
    let short = half(body.records.len());
    relaid(body, |k| short[k])
}
