//! Why rules 2 and 3 refuse an image, where the lengths of its records matter.

use crate::model::image::{bodies, word, SHORT};

pub const REFUSED: [&str; 6] = [
    "3, byte 79 to 127",
    "3, byte 207 to 255",
    "3, b 16 in a short jump",
    "2, an overlap of 2 addresses",
    "2, segment E passed by 2",
    "2, segment E passed by 4",
];

/// The fault of a record that rule 3 refuses, among the first of `REFUSED`.
fn record_fault(image: &[u8], place: usize) -> Option<usize> {
    let at = 4 + 12 * word(image, 0) as usize + 8 * place;
    let (byte, fields) = (image[at], &image[at + 1..at + 4]);
    match byte & !SHORT {
        79.. => Some((byte >= SHORT) as usize),
        57..=62 if byte >= SHORT && fields[0] < 16 && fields[1] < 16 && fields[2] == 16 => Some(2),
        _ => None,
    }
}

/// The fault of an entry that rule 2 refuses, among the last of `REFUSED`: the true end of a code range is at fault alone.
fn range_fault(image: &[u8], entry: usize) -> Option<usize> {
    let all = bodies(image);
    let end = |k: usize| all[k].load as u64 + all[k].records.iter().map(|r| r.length() as u64).sum::<u64>();
    let overlap = |k: usize| end(k - 1).checked_sub(all[k].load as u64);
    match (end(entry).checked_sub(0xE000_0000), entry) {
        (Some(2), _) => Some(4),
        (Some(4), _) => Some(5),
        (_, 1..) if overlap(entry) == Some(2) => Some(3),
        _ => None,
    }
}

/// Whether the table and the bodies of an image are whole, so that only its code ranges or its records can be refused.
fn is_whole(image: &[u8]) -> bool {
    let count = if image.len() < 4 { 0 } else { word(image, 0) as usize };
    let mut due = 4 + 12 * count;
    if !(1..=16).contains(&count) || image.len() < due {
        return false;
    }
    for entry in image[4..due].chunks_exact(12) {
        let [load, records, offset] = [0, 4, 8].map(|at| word(entry, at) as usize);
        if load % 4 != 0 || !(1..=65_536).contains(&records) || offset != due {
            return false;
        }
        due += 8 * records;
    }
    due == image.len()
}

/// Which of `REFUSED` a call's answer is.
pub fn reason(answer: u64, image: &[u8]) -> Option<usize> {
    let place = (answer >> 32) as usize;
    match (answer as u8, (answer >> 8) as u8) {
        (4, 3) => record_fault(image, place),
        (4, 2) if place > 0 && is_whole(image) => range_fault(image, place - 1),
        _ => None,
    }
}
