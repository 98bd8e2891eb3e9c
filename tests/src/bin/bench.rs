//! The proved code beside plain Rust, in one run: the best of several rounds of each, turn about.
//! An argument picks the rows whose names have it. With DEQBARYN_LONG set, those with short forms are left out.

use deqbaryn_tests::lengths::half;
use deqbaryn_tests::model::event::answer::PERMITS;
use deqbaryn_tests::model::image::{build, Body, Record};
use deqbaryn_tests::model::operations::Operation;
use deqbaryn_tests::model::windows::{link_of, Windows};
use deqbaryn_tests::model::{checks, machine};
use deqbaryn_tests::worked::{areas, record, Worked, BASE};
use deqbaryn_tests::{host, inputs, workloads};
use std::hint::black_box;
use std::time::{Duration, Instant};

const ROUNDS: usize = 41;
/// Ends the name of a row with short forms.
const HALF_SHORT: &str = ", half short";

/// The shortest time of `calls` calls over the rounds, for each of the two.
fn shortest<R>(calls: u32, mut proved: impl FnMut() -> R, mut plain: impl FnMut() -> R) -> [Duration; 2] {
    let mut best = [Duration::MAX; 2];
    for _ in 0..ROUNDS {
        let sides: [&mut dyn FnMut() -> R; 2] = [&mut proved, &mut plain];
        for (side, shortest) in sides.into_iter().zip(&mut best) {
            let start = Instant::now();
            for _ in 0..calls {
                black_box(side());
            }
            *shortest = (*shortest).min(start.elapsed());
        }
    }
    best
}

/// Nanoseconds for each of both, and how many times as many the proved code takes.
fn line(what: &str, calls: u32, unit: u32, [proved, plain]: [Duration; 2]) {
    let each = |d: Duration| d.as_secs_f64() * 1e9 / calls as f64 / unit as f64;
    println!("{what:<54} {:>9.3} {:>9.3} {:>6.2}", each(proved), each(plain), each(proved) / each(plain));
}

/// Steps a second of both, in millions, and how many times as many the proved code makes.
fn rate(what: &str, steps: u32, [proved, plain]: [Duration; 2]) {
    let each = |d: Duration| steps as f64 / d.as_secs_f64() / 1e6;
    let digits = if each(plain) < 10.0 { 4 } else { 1 };
    println!("{what:<54} {:>9.digits$} {:>9.digits$} {:>6.2}", each(proved), each(plain), each(proved) / each(plain));
}

fn heading(what: &str) {
    println!("{what:<54} {:>9} {:>9} {:>6}", "proved", "plain", "ratio");
}

/// Whether a row is asked for.
fn wanted(what: &str) -> bool {
    let left_out = what.ends_with(HALF_SHORT) && std::env::var_os("DEQBARYN_LONG").is_some();
    !left_out && std::env::args().nth(1).is_none_or(|part| what.contains(&part))
}

/// A body with every operation in turn.
fn body(load: u32, records: usize) -> Body {
    let record = |k: usize| Record {
        op: (k % 79) as u8,
        c: (k % 16) as u8,
        a: (k / 16 % 16) as u8,
        b: (k % 13) as u8,
        imm: k as u32,
    };
    Body { load, records: (0..records).map(record).collect() }
}

/// Bodies that lie apart.
fn apart(bodies: usize, records: usize) -> Vec<Body> {
    (0..bodies).map(|i| body(0x8000_0000 + 0x10_0000 * i as u32, records)).collect()
}

/// The same, each moved to the first load address after the one before.
fn touching(mut bodies: Vec<Body>) -> Vec<Body> {
    for k in 1..bodies.len() {
        bodies[k].load = bodies[k - 1].end().next_multiple_of(4);
    }
    bodies
}

/// The check of an image.
fn image(what: &str, bodies: &[Body]) {
    if !wanted(what) {
        return;
    }
    let image = build(bodies);
    let proved = || inputs::check_image(black_box(&image));
    let plain = || checks::image(black_box(&image));
    assert_eq!((proved(), plain()), (Ok(()), Ok(())));
    let all = bodies.iter().map(|body| body.records.len()).sum::<usize>() as u32;
    let calls = (262_144 / all).max(4);
    line(what, calls, all, shortest(calls, proved, plain));
}

/// The same with half of the records short.
fn shortened(bodies: &[Body]) -> Vec<Body> {
    let record = |(r, short): (&Record, bool)| if short { r.short() } else { *r };
    let records = |b: &Body| b.records.iter().zip(half(b.records.len())).map(record).collect();
    bodies.iter().map(|b| Body { load: b.load, records: records(b) }).collect()
}

fn images() {
    for (bodies, records) in [(1, 65536), (16, 4096), (1, 8)] {
        let long = apart(bodies, records);
        let what = format!("record of an image, {bodies} x {records}");
        image(&what, &long);
        image(&format!("{what}{HALF_SHORT}"), &shortened(&long));
        if bodies > 1 {
            image(&format!("{what}, touching"), &touching(long.clone()));
            image(&format!("{what}, touching{HALF_SHORT}"), &touching(shortened(&long)));
        }
    }
}

/// Links areas by strides: the even ones are on one list, the odd ones on another. The heads are the first two.
fn linked(windows: &mut Windows<Vec<u8>>, areas: &[u32]) -> (u32, u32) {
    for (area, next) in areas.iter().zip(&areas[2..]) {
        *windows.part_mut(*area).unwrap() = link_of(*next).to_le_bytes();
    }
    (link_of(areas[0]), link_of(areas[1]))
}

/// The check of two lists that hold these areas.
fn list(what: &str, mut windows: Windows<Vec<u8>>, areas: &[u32]) {
    let count = areas.len() as u32;
    let what = format!("area of two lists, {count} {what}");
    if !wanted(&what) {
        return;
    }
    let (fcx, pcxi) = linked(&mut windows, areas);
    let proved = || inputs::check_lists(black_box(&windows), fcx, pcxi);
    let plain = || checks::windows(&windows).and_then(|()| checks::lists(black_box(&windows), fcx, pcxi));
    assert_eq!((proved(), plain()), (Ok(()), Ok(())));
    line(&what, 256, count, shortest(256, proved, plain));
}

fn lists() {
    let full = || vec![0; 65_536];
    let two = || Windows::new(BASE, full(), BASE + 65_536, full());
    list("in all", Windows::one(BASE, full()), &areas(BASE, 1024));
    list("in all", Windows::one(BASE, full()), &areas(BASE + 64 * 1016, 8));
    list("in all", two(), &areas(BASE, 2048));
    // two areas of the first window, two of the second: each list goes from one to the other with every link
    let pairs = (0..512).flat_map(|k| [BASE + 128 * k, BASE + 65_536 + 128 * k]);
    list("that cross", two(), &pairs.flat_map(|area| [area, area + 64]).collect::<Vec<_>>());
}

/// Both sides go on from where they were: no state is copied between the calls.
fn steps(what: &str, worked: Worked, calls: u32, n: Option<u32>) {
    if !wanted(what) {
        return;
    }
    let Worked { core, windows, image } = worked;
    let (mut proved, mut plain) = ((core.to_record(), windows.clone()), (core.to_record(), windows));
    let expected = n.map_or(0, |n| (n as u64) << 32);
    let best = shortest(
        calls,
        || {
            let (core, windows) = &mut proved;
            let answer = match n {
                Some(n) => windows.run(host::run, core, &black_box(&image)[..], n),
                None => windows.step(host::step, core, &black_box(&image)[..]),
            };
            assert_eq!(answer & !PERMITS, expected);
        },
        || {
            let (core, windows) = &mut plain;
            let answer = match n {
                Some(n) => windows.run(machine::run, core, &black_box(&image)[..], n),
                None => windows.step(machine::step, core, &black_box(&image)[..]),
            };
            assert_eq!(answer & !PERMITS, expected);
        },
    );
    assert!(proved == plain, "{what}: the two sides differ");
    rate(what, calls * n.unwrap_or(1), best);
}

/// A workload as it is, and in half short forms.
fn both(what: &str, worked: Worked, calls: u32, n: Option<u32>) {
    steps(what, worked.clone(), calls, n);
    steps(&format!("{what}{HALF_SHORT}"), workloads::half_short(worked), calls, n);
}

/// Steps of one run.
const STEPS: u32 = 100_000;

fn runs() {
    for (what, worked) in [
        ("run, integer loop", workloads::integer()),
        ("run, load and store loop", workloads::loads_and_stores()),
        ("run, call and return loop", workloads::calls()),
        ("run, load and store loop, second window", workloads::in_second_window(workloads::loads_and_stores())),
        ("run, call and return loop, second window", workloads::in_second_window(workloads::calls())),
        ("run, mix of seed 1", workloads::mix(1)),
        ("run, mix of seed 2", workloads::mix(2)),
        ("run, mix of seed 2, protection on", workloads::protected(workloads::mix(2))),
        ("run, straight code of 1000 records", workloads::straight(1000)),
    ] {
        both(what, worked, 4, Some(STEPS));
    }
    // one run, so that the check of a long image counts little
    for apart in [20, 50, 100, 300, 10_000, 60_000] {
        both(&format!("run, jumps over {apart} records"), workloads::jumps(apart), 1, Some(4 * STEPS));
    }
    for apart in [50, 300, 60_000] {
        both(&format!("run, calls over {apart} records"), workloads::far_calls(apart), 1, Some(4 * STEPS));
    }
}

/// Calls of few steps: most of them is the check of the image.
fn short_calls() {
    let small = [record(Operation::Add, 1, 1, 16, 1), record(Operation::J, 0, 0, 0, 4u32.wrapping_neg())];
    both("single steps, image of 2 records", Worked::new(&small), 20_000, None);
    both("single steps, integer loop", workloads::integer(), 20_000, None);
    for (records, calls) in [(9, 20_000), (8_000, 100), (65_000, 12)] {
        let near_the_end = workloads::integer_after(records - 9);
        both(&format!("single steps, image of {records} records"), near_the_end.clone(), calls, None);
        both(&format!("runs of 1, image of {records} records"), near_the_end.clone(), calls, Some(1));
        both(&format!("runs of 100, image of {records} records"), near_the_end, calls.min(2_000), Some(100));
    }
}

fn main() {
    heading("nanoseconds for each");
    images();
    lists();
    println!();
    heading("millions of steps a second");
    runs();
    short_calls();
}
