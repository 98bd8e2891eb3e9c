//! Damaged images.

use super::code::image;
use super::draw::Draw;
use super::plan::Plan;
use crate::model::image::{bodies, SHORT};
use crate::model::operations::Operation::*;
use crate::rules::put;

/// Bytes at which rule 3 or a record's length changes.
const BYTES: [u8; 12] = [16, 17, 78, 79, 126, 127, 128, 206, 207, 208, 254, 255];

/// The conditional jumps alone take no immediate.
fn damage_record(draw: &mut Draw, image: &mut [u8], table: usize) {
    let record = table + 8 * draw.below((image.len() - table) as u32 / 8) as usize;
    if draw.percent(30) {
        image[record] = draw.within(Ji as u32, Loop as u32) as u8 | draw.pick(&[0, SHORT]);
        image[record + 3] = 16;
    } else {
        let field = draw.pick(&[0, 0, 1, 2, 3]);
        image[record + field] = draw.pick(&BYTES);
    }
}

/// Moves a body by its true length: the last one to where it ends at segment E or passes it by a record, another one to
/// where the one before ends or to the last load address before.
fn move_body(draw: &mut Draw, image: &mut [u8]) {
    let bodies = bodies(image);
    let k = draw.below(bodies.len() as u32) as usize;
    let past = draw.pick(&[0, 0, 2, 4, 4]);
    let load = match bodies.len() - 1 {
        last if k == last && draw.percent(70) => {
            let length = bodies[k].end() - bodies[k].load;
            ((0xE000_0000 - length) & !3) + past
        }
        _ if k > 0 => (bodies[k - 1].end() + 3 & !3).wrapping_sub(past),
        _ => bodies[k].load.wrapping_add(past),
    };
    put(image, 4 + 12 * k, load);
}

pub fn damaged(draw: &mut Draw, plan: &Plan) -> Vec<u8> {
    let mut image = image(draw, plan);
    let table = 4 + 12 * image[0] as usize;
    match draw.below(12) {
        0 => image.truncate(draw.below(image.len() as u32) as usize),
        1 => image.extend(vec![0; draw.within(1, 9) as usize]),
        2 => image[0] = draw.pick(&[0, 17, 255]),
        3..6 => move_body(draw, &mut image),
        6 | 7 => {
            let at = draw.below(table as u32) as usize;
            image[at] = image[at].wrapping_add(draw.pick(&[1, 2, 4, 128, 255]));
        }
        _ => damage_record(draw, &mut image, table),
    }
    image
}
