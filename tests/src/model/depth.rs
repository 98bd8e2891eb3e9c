//! The call depth counter.

use super::event::{Trap, CDO, CDU, NEST};
use super::fields::psw::{CDC, CDE};

/// The count and the mask of its bits; none where nothing is counted.
fn count(psw: u32) -> Option<(u32, u32)> {
    let cdc = psw & CDC;
    if psw & CDE == 0 || cdc == CDC {
        return None;
    }
    let ones = (cdc << 25).leading_ones();
    let mask = 0x3F >> ones;
    Some((cdc & mask, mask))
}

/// PSW after a call.
pub fn up(psw: u32) -> Result<u32, Trap> {
    match count(psw) {
        None => Ok(psw | CDE),
        Some((count, mask)) if count == mask => Err(CDO),
        Some(_) => Ok(psw + 1),
    }
}

/// RET's test; the PSW that it loads makes going down needless.
pub fn down(psw: u32) -> Result<(), Trap> {
    match count(psw) {
        Some((0, _)) => Err(CDU),
        _ => Ok(()),
    }
}

/// RFE's test.
pub fn nested(psw: u32) -> Result<(), Trap> {
    match count(psw) {
        Some((1.., _)) => Err(NEST),
        _ => Ok(()),
    }
}
