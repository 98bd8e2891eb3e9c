//! The host library: its four functions, on slices.

extern "C" {
    fn deqbaryn_version() -> u32;
    fn deqbaryn_start(
        core: *const u8,
        core_len: usize,
        base: u32,
        window: *const u8,
        window_len: usize,
        second_base: u32,
        second: *const u8,
        second_len: usize,
        image: *const u8,
        image_len: usize,
    ) -> u64;
    fn deqbaryn_step(
        core: *mut u8,
        core_len: usize,
        base: u32,
        window: *mut u8,
        window_len: usize,
        second_base: u32,
        second: *mut u8,
        second_len: usize,
        image: *const u8,
        image_len: usize,
    ) -> u64;
    fn deqbaryn_run(
        core: *mut u8,
        core_len: usize,
        base: u32,
        window: *mut u8,
        window_len: usize,
        second_base: u32,
        second: *mut u8,
        second_len: usize,
        image: *const u8,
        image_len: usize,
        n: u32,
    ) -> u64;
}

pub fn version() -> u32 {
    unsafe { deqbaryn_version() }
}

pub fn start(core: &[u8], base: u32, window: &[u8], second_base: u32, second: &[u8], image: &[u8]) -> u64 {
    unsafe {
        deqbaryn_start(
            core.as_ptr(),
            core.len(),
            base,
            window.as_ptr(),
            window.len(),
            second_base,
            second.as_ptr(),
            second.len(),
            image.as_ptr(),
            image.len(),
        )
    }
}

pub fn step(core: &mut [u8], base: u32, window: &mut [u8], second_base: u32, second: &mut [u8], image: &[u8]) -> u64 {
    unsafe {
        deqbaryn_step(
            core.as_mut_ptr(),
            core.len(),
            base,
            window.as_mut_ptr(),
            window.len(),
            second_base,
            second.as_mut_ptr(),
            second.len(),
            image.as_ptr(),
            image.len(),
        )
    }
}

pub fn run(
    core: &mut [u8],
    base: u32,
    window: &mut [u8],
    second_base: u32,
    second: &mut [u8],
    image: &[u8],
    n: u32,
) -> u64 {
    unsafe {
        deqbaryn_run(
            core.as_mut_ptr(),
            core.len(),
            base,
            window.as_mut_ptr(),
            window.len(),
            second_base,
            second.as_mut_ptr(),
            second.len(),
            image.as_ptr(),
            image.len(),
            n,
        )
    }
}
