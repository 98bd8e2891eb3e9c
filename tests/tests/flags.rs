//! AV and SAV of ADDS, ADDS.U, SUBS and SUBS.U: by the low word of the exact result before it is saturated.

use deqbaryn_tests::model::fields::psw::{AV, C, SAV, SV, V};
use deqbaryn_tests::model::operations::Operation::{self, *};
use deqbaryn_tests::worked::{record, Worked};

/// Operands, the word written, V and AV.
type Case = (u32, u32, u32, bool, bool);

/// The last low word of each quarter and the first of the next, past both ends and where the result fits.
const CASES: [(Operation, &[Case]); 4] = [
    (
        Adds,
        &[
            (0x8000_0000, 0x8000_0000, 0x8000_0000, true, false),
            (0x8000_0000, 0xBFFF_FFFF, 0x8000_0000, true, false),
            (0x8000_0000, 0xC000_0000, 0x8000_0000, true, true),
            (0x8000_0000, 0xFFFF_FFFF, 0x8000_0000, true, true),
            (0x7FFF_FFFF, 0x0000_0001, 0x7FFF_FFFF, true, true),
            (0x7FFF_FFFF, 0x4000_0000, 0x7FFF_FFFF, true, true),
            (0x7FFF_FFFF, 0x4000_0001, 0x7FFF_FFFF, true, false),
            (0x7FFF_FFFF, 0x7FFF_FFFF, 0x7FFF_FFFF, true, false),
            (0x3FFF_FFFF, 0x0000_0001, 0x4000_0000, false, true),
            (0xC000_0000, 0x0000_0001, 0xC000_0001, false, false),
        ],
    ),
    (
        AddsU,
        &[
            (0xFFFF_FFFF, 0x0000_0001, 0xFFFF_FFFF, true, false),
            (0xFFFF_FFFF, 0x4000_0000, 0xFFFF_FFFF, true, false),
            (0xFFFF_FFFF, 0x4000_0001, 0xFFFF_FFFF, true, true),
            (0xFFFF_FFFF, 0x8000_0000, 0xFFFF_FFFF, true, true),
            (0xFFFF_FFFF, 0x8000_0001, 0xFFFF_FFFF, true, true),
            (0xFFFF_FFFF, 0xC000_0000, 0xFFFF_FFFF, true, true),
            (0xFFFF_FFFF, 0xC000_0001, 0xFFFF_FFFF, true, false),
            (0xFFFF_FFFF, 0xFFFF_FFFF, 0xFFFF_FFFF, true, false),
            (0x4000_0000, 0x4000_0000, 0x8000_0000, false, true),
            (0x8000_0000, 0x4000_0000, 0xC000_0000, false, false),
        ],
    ),
    (
        Subs,
        &[
            (0x7FFF_FFFF, 0x8000_0000, 0x7FFF_FFFF, true, false),
            (0x7FFF_FFFF, 0xBFFF_FFFF, 0x7FFF_FFFF, true, false),
            (0x7FFF_FFFF, 0xC000_0000, 0x7FFF_FFFF, true, true),
            (0x7FFF_FFFF, 0xFFFF_FFFF, 0x7FFF_FFFF, true, true),
            (0x8000_0000, 0x0000_0001, 0x8000_0000, true, true),
            (0x8000_0000, 0x4000_0000, 0x8000_0000, true, true),
            (0x8000_0000, 0x4000_0001, 0x8000_0000, true, false),
            (0x8000_0000, 0x7FFF_FFFF, 0x8000_0000, true, false),
            (0x4000_0000, 0x0000_0001, 0x3FFF_FFFF, false, false),
            (0xC000_0000, 0x0000_0001, 0xBFFF_FFFF, false, true),
        ],
    ),
    (
        SubsU,
        &[
            (0x0000_0000, 0x0000_0001, 0x0000_0000, true, false),
            (0x0000_0000, 0x4000_0000, 0x0000_0000, true, false),
            (0x0000_0000, 0x4000_0001, 0x0000_0000, true, true),
            (0x0000_0000, 0x8000_0000, 0x0000_0000, true, true),
            (0x0000_0000, 0x8000_0001, 0x0000_0000, true, true),
            (0x0000_0000, 0xC000_0000, 0x0000_0000, true, true),
            (0x0000_0000, 0xC000_0001, 0x0000_0000, true, false),
            (0x0000_0000, 0xFFFF_FFFF, 0x0000_0000, true, false),
            (0x8000_0000, 0x4000_0000, 0x4000_0000, false, true),
            (0x4000_0000, 0x0000_0001, 0x3FFF_FFFF, false, false),
        ],
    ),
];

/// The five flags before an operation.
fn flags() -> impl Iterator<Item = u32> {
    (0..32).map(|bits| bits << 27)
}

/// PSW's flags afterwards.
fn flagged(before: u32, v: bool, av: bool) -> u32 {
    let overflow = if v { V | SV } else { before & SV };
    let advanced = if av { AV | SAV } else { before & SAV };
    before & C | overflow | advanced
}

#[test]
fn av_is_taken_before_saturation_and_sticks() {
    for (operation, cases) in CASES {
        for &(x, y, word, v, av) in cases {
            for before in flags() {
                let mut w = Worked::new(&[record(operation, 3, 1, 2, 0), record(operation, 4, 1, 16, y)]);
                (w.core.d[1], w.core.d[2]) = (x, y);
                w.core.psw |= before;
                let after = flagged(before, v, av) | 0xB80;
                w.done();
                assert_eq!((w.core.d[3], w.core.psw), (word, after), "{operation:?} {x:X} {y:X} after {before:X}");
                // the same flags again
                assert_eq!(w.run(1), 1 << 32);
                assert_eq!((w.core.d[4], w.core.psw), (word, after), "{operation:?} {x:X} {y:X} after {before:X}");
            }
        }
    }
}
