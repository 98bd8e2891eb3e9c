//! A call of the proved machine or of the second model, with the windows that a test holds.

use crate::model::windows::Windows;

pub type Start = fn(&[u8], u32, &[u8], u32, &[u8], &[u8]) -> u64;
pub type Step = fn(&mut [u8], u32, &mut [u8], u32, &mut [u8], &[u8]) -> u64;
pub type Run = fn(&mut [u8], u32, &mut [u8], u32, &mut [u8], &[u8], u32) -> u64;

impl Windows<Vec<u8>> {
    #[inline(always)]
    pub fn start(&self, by: Start, core: &[u8], image: &[u8]) -> u64 {
        let Windows { first, second } = self;
        by(core, first.base, &first.bytes, second.base, &second.bytes, image)
    }

    #[inline(always)]
    pub fn step(&mut self, by: Step, core: &mut [u8], image: &[u8]) -> u64 {
        let Windows { first, second } = self;
        by(core, first.base, &mut first.bytes, second.base, &mut second.bytes, image)
    }

    #[inline(always)]
    pub fn run(&mut self, by: Run, core: &mut [u8], image: &[u8], n: u32) -> u64 {
        let Windows { first, second } = self;
        by(core, first.base, &mut first.bytes, second.base, &mut second.bytes, image, n)
    }
}
