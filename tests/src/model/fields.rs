//! The fields of PSW, PCXI, ICR, SYSCON, of a request and of a range's mode.

pub mod psw {
    pub const C: u32 = 1 << 31;
    pub const V: u32 = 1 << 30;
    pub const SV: u32 = 1 << 29;
    pub const AV: u32 = 1 << 28;
    pub const SAV: u32 = 1 << 27;
    pub const IS: u32 = 1 << 9;
    pub const GW: u32 = 1 << 8;
    pub const CDE: u32 = 1 << 7;
    pub const CDC: u32 = 0x7F;
    /// PSW of every interrupt and trap entry.
    pub const ENTRY: u32 = 0x0000_0A80;

    pub fn prs(psw: u32) -> usize {
        (psw >> 12 & 3) as usize
    }

    pub fn io(psw: u32) -> u32 {
        psw >> 10 & 3
    }
}

/// The link's bits in PCXI, FCX, LCX and in an area's first word.
pub const LINK: u32 = 0xF_FFFF;

pub mod pcxi {
    pub const PIE: u32 = 1 << 23;
    pub const UL: u32 = 1 << 22;

    pub fn pcpn(pcxi: u32) -> u32 {
        pcxi >> 24
    }
}

pub mod icr {
    pub const IE: u32 = 1 << 8;
    pub const CCPN: u32 = 0xFF;
}

pub const PROTECTION_ON: u32 = 1 << 1;

pub mod request {
    pub const PRIORITY: u32 = 0xFF;
    pub const ENABLED: u32 = 1 << 9;
    pub const REQUESTED: u32 = 1 << 10;
}

pub mod mode {
    pub const WRITE: u32 = 1 << 7;
    pub const READ: u32 = 1 << 6;
    pub const EXECUTE: u32 = 1 << 7;
}
