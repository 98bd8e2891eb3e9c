//! Replays the image CALL, RET through the host library, and shows two areas of the window after each step.
//! All memory is in the first window: the second one is empty.

use std::ptr::{null, null_mut};

extern "C" {
    fn deqbaryn_version() -> u32;
    fn deqbaryn_start(
        core: *const u8,
        core_len: usize,
        base: u32,
        window: *const u8,
        window_len: usize,
        second_base: u32,
        second: *const u8,
        second_len: usize,
        image: *const u8,
        image_len: usize,
    ) -> u64;
    fn deqbaryn_step(
        core: *mut u8,
        core_len: usize,
        base: u32,
        window: *mut u8,
        window_len: usize,
        second_base: u32,
        second: *mut u8,
        second_len: usize,
        image: *const u8,
        image_len: usize,
    ) -> u64;
}

// DEQBARYN_VERSION of the header that the declarations above are taken from
const VERSION: u32 = 3;

const BASE: u32 = 0xD000_0000;
const AREAS: usize = 64;

// byte offsets in the core record
const D: usize = 0;
const PC: usize = 128;
const PSW: usize = 132;
const PCXI: usize = 136;
const FCX: usize = 140;
const BTV: usize = 160;

#[rustfmt::skip]
const IMAGE: [u8; 32] = [
    1, 0, 0, 0, // one entry
    0, 0, 0, 0x80, 2, 0, 0, 0, 16, 0, 0, 0, // 80000000, two records, at byte 16
    0x40, 0, 0, 0, 4, 0, 0, 0, // CALL to PC + 4
    0x42, 0, 0, 0, 0, 0, 0, 0, // RET
];

fn put_word(bytes: &mut [u8], i: usize, word: u32) {
    bytes[i..i + 4].copy_from_slice(&word.to_le_bytes());
}

fn word_at(bytes: &[u8], i: usize) -> u32 {
    u32::from_le_bytes(bytes[i..i + 4].try_into().unwrap())
}

fn start(core: &[u8], window: &[u8]) -> u64 {
    let (c, w, i) = (core, window, &IMAGE);
    // SAFETY: each pointer goes with the length of its slice; one of length 0 may be null.
    unsafe { deqbaryn_start(c.as_ptr(), c.len(), BASE, w.as_ptr(), w.len(), 0, null(), 0, i.as_ptr(), i.len()) }
}

fn step(core: &mut [u8], window: &mut [u8]) -> u64 {
    let (c, w, i) = (core, window, &IMAGE);
    // SAFETY: as for a start, and the slices do not overlap.
    unsafe {
        deqbaryn_step(c.as_mut_ptr(), c.len(), BASE, w.as_mut_ptr(), w.len(), 0, null_mut(), 0, i.as_ptr(), i.len())
    }
}

fn show_area(window: &[u8], n: usize) {
    print!("area {:08X}:", BASE + 64 * n as u32);
    for k in 0..16 {
        print!(" {:08X}", word_at(window, 64 * n + 4 * k));
    }
    println!();
}

fn main() {
    // SAFETY: no arguments; every version from 2 on has this function.
    let version = unsafe { deqbaryn_version() };
    if version != VERSION {
        println!("version {version}, not {VERSION}");
        std::process::exit(1);
    }
    let mut core = [0; 616];
    let mut window = [0; 64 * AREAS];
    // the free list: all areas, upward
    for n in 0..AREAS - 1 {
        put_word(&mut window, 64 * n, 0xD0001 + n as u32);
    }
    put_word(&mut core, FCX, 0xD0000);
    put_word(&mut core, PC, 0x8000_0000);
    put_word(&mut core, PSW, 0x0000_0B80);
    put_word(&mut core, BTV, 0x8001_0000);
    // D8 to D15 hold their numbers, which then show in a saved area
    for n in 8..16 {
        put_word(&mut core, D + 4 * n, n as u32);
    }

    let answer = start(&core, &window);
    if answer as u8 != 6 {
        println!("refused {} {}", (answer >> 8) as u8, answer >> 32);
        std::process::exit(1);
    }
    println!("accepted");

    let mut steps = 0;
    loop {
        let pc = word_at(&core, PC);
        let answer = step(&mut core, &mut window);
        let (kind, number, tin) = (answer as u8, (answer >> 8) as u8, (answer >> 16) as u8);
        match kind {
            0 => print!("ins"),
            1 => print!("int {number}"),
            2 => print!("trap {number}/{tin}"),
            _ => {
                println!("no step: kind {kind}, number {number}");
                std::process::exit(1);
            }
        }
        let [next, fcx, pcxi] = [PC, FCX, PCXI].map(|i| word_at(&core, i));
        println!(" {pc:08X} {next:08X} {fcx:08X} {pcxi:08X}");
        show_area(&window, 0);
        show_area(&window, 1);
        steps += 1;
        if kind == 2 {
            break;
        }
    }
    println!("end {steps}");
}
