//! The host library against the second model, byte by byte, over series made from seeds; the book of demand 3 beside them.
//! DEQBARYN_STEPS is the number of steps, DEQBARYN_SEED the first seed: a failing series is the first of its own seed.

use deqbaryn_tests::coverage::windows::Called;
use deqbaryn_tests::generate::{series, Change, Kind, Series};
use deqbaryn_tests::model::core::{Core, RECORD};
use deqbaryn_tests::model::machine;
use deqbaryn_tests::model::windows::Windows;
use deqbaryn_tests::report::{difference, extents, place};
use deqbaryn_tests::watch::Watcher;
use deqbaryn_tests::{host, model::event::answer};

const LEAST_SERIES: u64 = 500;
const LEAST_RETURNS: u64 = 2_000;
/// Of each: returns of entries read at the start, interrupts, FCD entries, stops, refused calls, saves and returns right after
/// one in the other window.
const LEAST_OTHERS: u64 = 100;
/// Of each layout, refusal, way between the windows and access at their ends.
const LEAST_OF_WINDOWS: u64 = 100;
/// Of each operation in its short form, of each refusal for a length, way within a body and step across two.
const LEAST_OF_LENGTHS: u64 = 100;
/// Of each: reads, writes and fetches that several ranges permit, the set's first among them and not.
const LEAST_OVERLAPS: u64 = 1_000;
/// Of each saturating operation: results that show AV, and SAV, to be taken before saturation.
const LEAST_SATURATED: u64 = 100;

fn number(name: &str, default: u64) -> u64 {
    std::env::var(name).map_or(default, |text| text.parse().unwrap_or_else(|_| panic!("{name} is no number")))
}

/// The core and the windows of one side.
#[derive(Clone, PartialEq)]
struct Side {
    core: Vec<u8>,
    windows: Windows<Vec<u8>>,
}

fn proved_call(side: &mut Side, image: &[u8], kind: Kind) -> u64 {
    match kind {
        Kind::Step => side.windows.step(host::step, &mut side.core, image),
        Kind::Run(n) => side.windows.run(host::run, &mut side.core, image, n),
    }
}

fn model_call(side: &mut Side, image: &[u8], kind: Kind, watcher: &mut Watcher) -> u64 {
    match kind {
        Kind::Step => machine::step_observed(&mut side.core, side.windows.lent(), image, watcher),
        Kind::Run(n) => machine::run_observed(&mut side.core, side.windows.lent(), image, n, watcher),
    }
}

/// The shortest run that differs from the same state on, with the state before its last step.
fn narrowed(before: &Side, image: &[u8], most: u32) -> Option<String> {
    let after = |n: u32| {
        let (mut proved, mut model) = (before.clone(), before.clone());
        let p = proved.windows.run(host::run, &mut proved.core, image, n);
        let m = model.windows.run(machine::run, &mut model.core, image, n);
        (p, proved, m, model)
    };
    (0..=most).map(|n| (n, after(n))).find(|(_, (p, proved, m, model))| p != m || proved != model).map(
        |(n, (p, proved, m, model))| {
            let (_, last, ..) = after(n.saturating_sub(1));
            let text = difference((p, &proved.core, &proved.windows), (m, &model.core, &model.windows));
            format!("a run of {n} differs first; before its last step\n{}\n{text}", place(&last.core, image))
        },
    )
}

fn set(core: &mut [u8], change: Change) {
    let mut put = |word: usize, value: u32| core[4 * word..4 * word + 4].copy_from_slice(&value.to_le_bytes());
    match change {
        Change::Request(source, word) => put(42 + source, word),
        Change::Range(k, range) => {
            put(58 + 3 * k, range.lower);
            put(59 + 3 * k, range.upper);
            put(60 + 3 * k, range.mode);
        }
    }
}

/// The start of a series on both sides, which leaves its windows as they were.
fn start(seed: u64, series: &Series, watcher: &mut Watcher) {
    let Series { windows, core, images, .. } = series;
    let before = windows.clone();
    for (k, image) in images.iter().enumerate() {
        let proved = windows.start(host::start, core, image);
        let model = windows.start(machine::start, core, image);
        assert!(proved == model, "DEQBARYN_SEED={seed}: start, proved {proved:016X}, model {model:016X}");
        watcher.lends(k, Called::Start);
        watcher.coverage.lengths.answer(model, image);
        watcher.started(model, &Core::from_record(core), windows);
    }
    for length in [0, RECORD - 1] {
        assert_eq!(windows.start(host::start, &core[..length], &images[0]), answer::WRONG_LENGTH);
    }
    assert!(*windows == before, "DEQBARYN_SEED={seed}: a start changed a window");
}

/// A call on both sides, which must agree in every byte: the answer. One that is refused leaves everything as it was.
fn call_both(name: &dyn Fn() -> String, side: &mut Side, image: &[u8], kind: Kind, watcher: &mut Watcher) -> u64 {
    let (before, mut proved) = (side.clone(), side.clone());
    let p = proved_call(&mut proved, image, kind);
    let m = model_call(side, image, kind, watcher);
    if p != m || proved != *side {
        let lent = extents(&before.windows);
        let place = place(&before.core, image);
        let text = difference((p, &proved.core, &proved.windows), (m, &side.core, &side.windows));
        let narrowed = match kind {
            Kind::Run(n) => narrowed(&before, image, n).unwrap_or_default(),
            Kind::Step => String::new(),
        };
        panic!("{}\n{lent}\nbefore\n{place}\n{text}{narrowed}", name());
    }
    let refused = matches!(m as u8, 4 | 5);
    assert!(!refused || *side == before, "{}: {m:016X}, and something changed", name());
    m
}

fn called(kind: Kind) -> Called {
    match kind {
        Kind::Run(_) => Called::Run,
        Kind::Step => Called::Step,
    }
}

/// One series, compared after each call. A stop is tried again twice, since only the host's requests could end it.
fn walk(seed: u64, watcher: &mut Watcher) {
    let series = series(seed);
    watcher.begins_series(&series.windows, &series.images);
    start(seed, &series, watcher);
    let mut side = Side { core: series.core.to_vec(), windows: series.windows };
    let mut stops = 0;
    for (k, call) in series.calls.iter().enumerate() {
        for change in &call.changes {
            set(&mut side.core, *change);
        }
        let name = || format!("DEQBARYN_SEED={seed}: call {k}, {:?} of image {}", call.kind, call.image);
        let whole = side.core.clone();
        side.core.resize(call.length, 0xA5);
        let (image, called) = (&series.images[call.image], called(call.kind));
        watcher.lends(call.image, called);
        let answer = call_both(&name, &mut side, image, call.kind, watcher);
        if call.length != RECORD {
            side.core = whole;
        }
        match call.kind {
            Kind::Run(n) => watcher.coverage.run(n, answer),
            Kind::Step => watcher.told(answer),
        }
        watcher.coverage.lengths.answer(answer, image);
        let core = Core::from_record(side.core.as_slice().try_into().unwrap());
        watcher.called(called, answer, &core, &side.windows);
        if let Some(fault) = &watcher.fault {
            panic!("{}: the book differs: {fault}", name());
        }
        stops += (answer as u8 == 3) as u32;
        if stops == 3 {
            break;
        }
    }
}

#[test]
fn the_proved_machine_agrees_with_the_second_model() {
    let steps = number("DEQBARYN_STEPS", 5_000_000);
    let first = number("DEQBARYN_SEED", 1);
    let mut watcher = Watcher::default();
    let (mut met, mut seed) = (0, first);
    while watcher.coverage.steps < steps {
        walk(seed, &mut watcher);
        met += watcher.book.is_some() as u64;
        seed += 1;
    }
    println!("{}", watcher.coverage);
    println!("{} series; the conditions of demand 3 held in {met}; while they held: {:?}", seed - first, watcher.kept);
    let missing = watcher.coverage.missing();
    assert!(missing.is_empty(), "never met: {missing:?}");
    let overlaps = watcher.coverage.fewest_overlaps();
    assert!(overlaps >= LEAST_OVERLAPS, "{overlaps} accesses of a kind only met several ranges");
    let saturated = watcher.coverage.fewest_saturated();
    assert!(saturated >= LEAST_SATURATED, "{saturated} results only of an operation show where AV or SAV is taken");
    let (what, count) = watcher.coverage.fewest_of_windows();
    assert!(count >= LEAST_OF_WINDOWS, "{what} was met {count} times only");
    let (what, count) = watcher.coverage.fewest_of_lengths();
    assert!(count >= LEAST_OF_LENGTHS, "{what} was met {count} times only");
    assert!(met >= LEAST_SERIES, "the conditions held in {met} series only");
    let kept = watcher.kept;
    assert!(kept.returns >= LEAST_RETURNS, "{} returns only were compared", kept.returns);
    let moved = [kept.returns_from_start, kept.saves_after_other, kept.returns_after_other];
    let others = [kept.interrupts, kept.fcd_entries, kept.stops, kept.refused];
    assert!(moved.iter().chain(&others).all(|n| *n >= LEAST_OTHERS), "{kept:?}");
}
