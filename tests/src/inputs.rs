//! The checks of the inputs, as the proved library answers them.

use crate::model::checks::Refusal;
use crate::model::windows::Windows;

extern "C" {
    fn deqbaryn_check_image(image: *const u8, len: usize) -> u64;
    fn deqbaryn_check_lists(
        base: u32,
        window: *const u8,
        len: usize,
        base2: u32,
        window2: *const u8,
        len2: usize,
        fcx: u32,
        pcxi: u32,
    ) -> u64;
    fn deqbaryn_try_step(
        base: u32,
        window: *const u8,
        len: usize,
        base2: u32,
        window2: *const u8,
        len2: usize,
        image: *const u8,
        image_len: usize,
        pc: u32,
    ) -> u64;
    fn deqbaryn_try_start(
        base: u32,
        window: *const u8,
        len: usize,
        base2: u32,
        window2: *const u8,
        len2: usize,
        image: *const u8,
        image_len: usize,
        pc: u32,
        fcx: u32,
        pcxi: u32,
    ) -> u64;
    fn deqbaryn_fetch(image: *const u8, len: usize, pc: u32) -> u64;
}

fn verdict(answer: u64) -> Result<(), Refusal> {
    match answer as u32 {
        0 => Ok(()),
        number => Err(Refusal { number, place: (answer >> 32) as u32 }),
    }
}

pub fn check_image(image: &[u8]) -> Result<(), Refusal> {
    verdict(unsafe { deqbaryn_check_image(image.as_ptr(), image.len()) })
}

/// Rules 1 and 13, then 5 and 6.
pub fn check_lists(Windows { first, second }: &Windows<impl AsRef<[u8]>>, fcx: u32, pcxi: u32) -> Result<(), Refusal> {
    let (window, window2) = (first.bytes.as_ref(), second.bytes.as_ref());
    verdict(unsafe {
        deqbaryn_check_lists(
            first.base,
            window.as_ptr(),
            window.len(),
            second.base,
            window2.as_ptr(),
            window2.len(),
            fcx,
            pcxi,
        )
    })
}

pub fn try_step(Windows { first, second }: &Windows<impl AsRef<[u8]>>, image: &[u8], pc: u32) -> Result<(), Refusal> {
    let (window, window2) = (first.bytes.as_ref(), second.bytes.as_ref());
    verdict(unsafe {
        deqbaryn_try_step(
            first.base,
            window.as_ptr(),
            window.len(),
            second.base,
            window2.as_ptr(),
            window2.len(),
            image.as_ptr(),
            image.len(),
            pc,
        )
    })
}

pub fn try_start(
    Windows { first, second }: &Windows<impl AsRef<[u8]>>,
    image: &[u8],
    pc: u32,
    fcx: u32,
    pcxi: u32,
) -> Result<(), Refusal> {
    let (window, window2) = (first.bytes.as_ref(), second.bytes.as_ref());
    verdict(unsafe {
        deqbaryn_try_start(
            first.base,
            window.as_ptr(),
            window.len(),
            second.base,
            window2.as_ptr(),
            window2.len(),
            image.as_ptr(),
            image.len(),
            pc,
            fcx,
            pcxi,
        )
    })
}

/// A record: its length in addresses, c, a, b and the immediate.
#[derive(Debug, PartialEq, Eq, Clone, Copy)]
pub struct Fields {
    pub length: u8,
    pub c: u8,
    pub a: u8,
    pub b: u8,
    pub imm: u32,
}

/// The record that begins at pc, of an accepted image.
pub fn fetch(image: &[u8], pc: u32) -> Option<Fields> {
    let answer = unsafe { deqbaryn_fetch(image.as_ptr(), image.len(), pc) };
    let byte = |n: u32| (answer >> (8 * n)) as u8;
    let imm = (answer >> 32) as u32;
    (byte(0) != 0).then(|| Fields { length: byte(0), c: byte(1), a: byte(2), b: byte(3), imm })
}
