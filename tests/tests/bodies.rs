//! Runs within long bodies of both lengths, and across bodies.

use deqbaryn_tests::lengths::{half_short, relaid};
use deqbaryn_tests::model::core::Range;
use deqbaryn_tests::model::image::{build, Body, Record};
use deqbaryn_tests::model::operations::Operation::*;
use deqbaryn_tests::worked::{plain, record, Worked, LOAD};

/// A machine with these bodies, at the first one.
fn machine(bodies: &[Body]) -> Worked {
    let mut w = Worked::new(&[Record::NOP]);
    w.image = build(bodies);
    w.core.pc = bodies[0].load;
    w
}

/// So many additions, D1 going up by 1 with each: the short ones by a pattern.
fn additions(load: u32, count: usize, short: impl Fn(usize) -> bool) -> Body {
    let add = record(Add, 1, 1, 16, 1);
    Body { load, records: (0..count).map(|k| if short(k) { add.short() } else { add }).collect() }
}

/// A run, and as many steps from the same state on: both leave the same.
fn run_as_steps(w: &mut Worked, n: u32) {
    let mut steps = w.clone();
    for _ in 0..n {
        steps.done();
    }
    assert_eq!(w.run(n), (n as u64) << 32);
    assert!(w.core == steps.core && w.windows == steps.windows, "a run of {n} and {n} steps differ");
}

#[test]
fn a_step_goes_from_a_body_to_the_next_that_begins_there() {
    let first = additions(LOAD, 5, |k| k != 2);
    assert_eq!(first.end(), LOAD + 12);
    let second = additions(LOAD + 12, 3, |k| k != 0);
    let third = additions(LOAD + 20, 2, |_| false);
    let mut w = machine(&[first, second, third]);
    let ends = [2, 4, 8, 10, 12, 16, 18, 20, 24, 28];
    for (k, end) in ends.into_iter().enumerate() {
        let mut run = w.clone();
        run_as_steps(&mut run, k as u32 + 1);
        assert_eq!((run.core.pc, run.core.d[1]), (LOAD + end, k as u32 + 1));
    }
    assert_eq!(w.run(11), 11 << 32 | 0x1_0402);
    assert_eq!((w.core.a[11], w.core.d[1]), (LOAD + 28, 10));
}

#[test]
fn a_run_through_sixteen_bodies() {
    let mut bodies: Vec<Body> = Vec::new();
    for k in 0..16 {
        // an even number of short ones, so that the next body begins right after
        let load = bodies.last().map_or(LOAD, Body::end);
        bodies.push(additions(load, 7 + k, |n| n % 3 == 0 && n < 6 || k > 9 && n < 8));
    }
    let count = bodies.iter().map(|body| body.records.len() as u32).sum();
    let mut w = machine(&bodies);
    for n in [1, 6, 7, 8, 50, count - 1, count] {
        run_as_steps(&mut w.clone(), n);
    }
    run_as_steps(&mut w, count);
    assert_eq!((w.core.pc, w.core.d[1]), (bodies[15].end(), count));
    w.trapped(4, 1);
}

#[test]
fn no_step_goes_over_a_gap() {
    // the first body ends two addresses before the second one
    let bodies = [additions(LOAD, 3, |_| true), additions(LOAD + 8, 3, |_| true)];
    assert_eq!(bodies[0].end(), LOAD + 6);
    let mut w = machine(&bodies);
    run_as_steps(&mut w, 3);
    let mut run = w.clone();
    w.trapped_with(4, 1, LOAD + 6);
    assert_eq!(run.run(1), 1 << 32 | 0x1_0402);
    assert!(run.core == w.core);
    // a jump goes
    w.core.pc = LOAD + 8;
    w.done();
}

/// A round of five steps: D1 at 0, from 2 to 10 in the second body, from there back to 6, D2 there, and from 8 to 0.
#[test]
fn jumps_between_bodies_that_touch() {
    let there = [record(Add, 1, 1, 16, 1).short(), record(J, 0, 0, 0, 8), record(Add, 2, 2, 16, 1).short()];
    let back = [record(J, 0, 0, 0, 8u32.wrapping_neg()).short(), record(J, 0, 0, 0, 4u32.wrapping_neg())];
    let bodies = [(LOAD, there.to_vec()), (LOAD + 8, back.to_vec())].map(|(load, records)| Body { load, records });
    let mut w = machine(&bodies);
    for (n, next) in [(1, 2), (1, 10), (1, 6), (1, 8), (1, 0), (3, 6), (1_000, 6), (1_002, 0)] {
        run_as_steps(&mut w, n);
        assert_eq!(w.core.pc, LOAD + next, "{n}");
    }
    assert_eq!((w.core.d[1], w.core.d[2]), (402, 402));
}

/// A body of so many additions, with a jump at the front to the last and one at the last to the second.
fn there_and_back(count: usize) -> Body {
    let mut body = additions(LOAD, count, |_| false);
    let over = 4 * (count as u32 - 1);
    body.records[0] = record(J, 0, 0, 0, over);
    body.records[count - 1] = record(J, 0, 0, 0, (over - 4).wrapping_neg());
    body
}

#[test]
fn far_jumps_in_a_body_of_several_hundred_records() {
    for count in [20, 51, 64, 200, 301, 302, 700, 2_000] {
        let long = there_and_back(count);
        let patterns: [Body; 4] = [
            half_short(&long),
            relaid(&long, |k| k % 3 == 0),
            relaid(&long, |_| true),
            relaid(&long, |k| k + 1 < count),
        ];
        for body in patterns.iter().chain([&long]) {
            let starts = body.addresses();
            let mut w = machine(std::slice::from_ref(body));
            run_as_steps(&mut w, 1);
            assert_eq!(w.core.pc, starts[count - 1]);
            run_as_steps(&mut w, 1);
            assert_eq!(w.core.pc, starts[1]);
            // through the body, over the jump back, and again
            let steps = count as u32 - 1;
            run_as_steps(&mut w, steps);
            assert_eq!((w.core.pc, w.core.d[1]), (starts[1], steps - 1));
            let mut w = machine(std::slice::from_ref(body));
            run_as_steps(&mut w, 3 * steps + 2);
            assert_eq!((w.core.pc, w.core.d[1]), (starts[1], 3 * (steps - 1)));
        }
    }
}

#[test]
fn far_calls_in_a_body_of_several_hundred_records() {
    for count in [60, 310, 700] {
        let mut long = additions(LOAD, count, |_| false);
        long.records[0] = record(Call, 0, 0, 0, 4 * (count as u32 - 2));
        long.records[1] = record(J, 0, 0, 0, 4u32.wrapping_neg());
        long.records[count - 1] = plain(Ret);
        for body in [half_short(&long), relaid(&long, |k| k == 0), relaid(&long, |k| k > 0), long.clone()] {
            let starts = body.addresses();
            let mut w = machine(std::slice::from_ref(&body));
            run_as_steps(&mut w, 1);
            assert_eq!((w.core.pc, w.core.a[11]), (starts[count - 2], starts[1]));
            run_as_steps(&mut w, 2);
            assert_eq!((w.core.pc, w.core.d[1]), (starts[1], 1));
            run_as_steps(&mut w, 1_000);
            assert_eq!(w.core.d[1], 251);
        }
    }
}

#[test]
fn every_record_and_every_address_between_in_a_long_body() {
    let body = relaid(&additions(LOAD, 600, |_| false), |k| k % 5 < 2 || k > 500);
    let starts = body.addresses();
    let image = build(std::slice::from_ref(&body));
    for address in (LOAD..=body.end() + 2).step_by(2) {
        let mut w = machine(&[additions(LOAD, 1, |_| false)]);
        w.image = image.clone();
        w.core.pc = address;
        let place = starts.iter().position(|start| *start == address).filter(|k| *k < 600);
        let mut run = w.clone();
        match place {
            Some(k) => {
                run_as_steps(&mut w, 1);
                assert_eq!(w.core.pc, starts[k + 1]);
                // to the body's end
                let left = 600 - k as u32;
                assert_eq!(run.run(left + 1), (left as u64 + 1) << 32 | 0x1_0402);
                assert_eq!((run.core.d[1], run.core.a[11]), (left, body.end()));
            }
            None => {
                w.trapped_with(4, 1, address);
                assert_eq!(run.run(1), 1 << 32 | 0x1_0402);
                assert!(run.core == w.core);
            }
        }
    }
}

/// Additions of both lengths, with these code ranges to execute.
fn protected(ranges: &[(u32, u32)]) -> (Worked, Vec<u32>) {
    let body = half_short(&additions(LOAD, 60, |_| false));
    let starts = body.addresses();
    let mut w = machine(&[body]);
    w.core.syscon = 2;
    for (slot, (lower, upper)) in w.core.ranges[4..].iter_mut().zip(ranges) {
        *slot = Range { lower: *lower, upper: *upper, mode: 0x80 };
    }
    (w, starts)
}

#[test]
fn a_run_ends_where_its_code_range_does() {
    let (_, starts) = protected(&[]);
    for upper in LOAD + 1..=starts[59] {
        // those whose first address is in the range
        let count = starts.iter().filter(|start| **start < upper).count() as u32;
        let (mut w, starts) = protected(&[(LOAD, upper)]);
        run_as_steps(&mut w.clone(), count);
        assert_eq!(w.run(count + 1), (count as u64 + 1) << 32 | 0x4_0102);
        assert_eq!((w.core.d[1], w.core.a[11]), (count, starts[count as usize]), "{upper:X}");
    }
}

#[test]
fn a_run_goes_on_in_the_next_code_range() {
    let (_, starts) = protected(&[]);
    let end = starts[60];
    for seam in LOAD + 1..end {
        for ranges in [[(LOAD, seam), (seam, end)], [(seam, end), (LOAD, seam)]] {
            let (mut w, _) = protected(&ranges);
            run_as_steps(&mut w, 60);
            assert_eq!((w.core.pc, w.core.d[1]), (end, 60), "{seam:X}");
        }
    }
}
