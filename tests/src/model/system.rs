//! MFCR and MTCR.

use super::core::Core;

pub mod offset {
    pub const PCXI: u32 = 0xFE00;
    pub const PSW: u32 = 0xFE04;
    pub const PC: u32 = 0xFE08;
    pub const SYSCON: u32 = 0xFE14;
    pub const BIV: u32 = 0xFE20;
    pub const BTV: u32 = 0xFE24;
    pub const ISP: u32 = 0xFE28;
    pub const ICR: u32 = 0xFE2C;
    pub const FCX: u32 = 0xFE38;
    pub const LCX: u32 = 0xFE3C;
    pub const ALL: [u32; 10] = [PCXI, PSW, PC, SYSCON, BIV, BTV, ISP, ICR, FCX, LCX];
}

impl Core {
    fn register(&mut self, offset: u32) -> Option<&mut u32> {
        Some(match offset {
            offset::PCXI => &mut self.pcxi,
            offset::PSW => &mut self.psw,
            offset::SYSCON => &mut self.syscon,
            offset::BIV => &mut self.biv,
            offset::BTV => &mut self.btv,
            offset::ISP => &mut self.isp,
            offset::ICR => &mut self.icr,
            offset::FCX => &mut self.fcx,
            offset::LCX => &mut self.lcx,
            _ => return None,
        })
    }

    pub fn read_register(&mut self, offset: u32) -> u32 {
        match offset {
            offset::PC => self.pc,
            _ => self.register(offset).map_or(0, |r| *r),
        }
    }

    pub fn write_register(&mut self, offset: u32, word: u32) {
        if let Some(register) = self.register(offset) {
            *register = word;
        }
    }
}
