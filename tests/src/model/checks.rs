//! Rules 1 to 6 and 13.

use super::image::{length, word, SHORT};
use super::windows::{address_of, Place, Window, Windows};

/// A refusal by its number and place.
#[derive(Debug, Clone, Copy, PartialEq, Eq)]
pub struct Refusal {
    pub number: u32,
    pub place: u32,
}

fn refuse(number: u32, place: u32) -> Result<(), Refusal> {
    Err(Refusal { number, place })
}

/// Rule 1 of one window.
fn window(Window { base, bytes }: &Window<impl AsRef<[u8]>>) -> Result<(), Refusal> {
    let (base, len) = (*base, bytes.as_ref().len());
    let fits = (64..=65536).contains(&len)
        && len % 64 == 0
        && base % 64 == 0
        && base >> 28 < 0xE
        && (base as u64 + len as u64 - 1) >> 28 == (base >> 28) as u64;
    if fits {
        Ok(())
    } else {
        refuse(1, 0)
    }
}

/// Rule 1 of the first window and of the second, then rule 13. A second window of length 0 passes both.
pub fn windows(Windows { first, second }: &Windows<impl AsRef<[u8]>>) -> Result<(), Refusal> {
    window(first)?;
    let [len, second_len] = [first, second].map(|window| window.bytes.as_ref().len());
    if second_len == 0 {
        return Ok(());
    }
    window(second)?;
    if first.base < second.base + second_len as u32 && second.base < first.base + len as u32 {
        return refuse(13, 0);
    }
    Ok(())
}

/// The code range of an entry.
#[derive(Clone, Copy)]
struct Code<'a> {
    load: u64,
    body: &'a [u8],
}

impl Code<'_> {
    fn end(self) -> u64 {
        self.load + self.body.chunks_exact(8).map(|record| length(record[0]) as u64).sum::<u64>()
    }

    /// Whether it goes past an address. The body is read only where long records would.
    fn passes(self, address: u64) -> bool {
        self.load + self.body.len() as u64 / 2 > address && self.end() > address
    }
}

/// Rule 2: the table of contents.
fn table(image: &[u8]) -> Result<(), Refusal> {
    if image.len() < 4 {
        return refuse(2, 0);
    }
    let n = word(image, 0) as usize;
    if !(1..=16).contains(&n) || image.len() < 4 + 12 * n {
        return refuse(2, 0);
    }
    let mut bodies = &image[4 + 12 * n..];
    let mut before = Code { load: 0, body: &[] };
    for (i, entry) in image[4..4 + 12 * n].chunks_exact(12).enumerate() {
        let [load, records, offset] = [0, 4, 8].map(|at| word(entry, at) as usize);
        let right = load % 4 == 0
            && (1..=65536).contains(&records)
            && offset == image.len() - bodies.len()
            && 8 * records <= bodies.len();
        if !right {
            return refuse(2, i as u32 + 1);
        }
        let (body, rest) = bodies.split_at(8 * records);
        let code = Code { load: load as u64, body };
        if before.passes(code.load) || code.passes(0xE000_0000) {
            return refuse(2, i as u32 + 1);
        }
        (bodies, before) = (rest, code);
    }
    if !bodies.is_empty() {
        return refuse(2, n as u32);
    }
    Ok(())
}

/// For each operation byte the least b that rule 3 refuses: 0 where it refuses the byte.
const LEAST_REFUSED: [u8; 256] = {
    let mut least = [0; 256];
    let mut byte = 0;
    while byte < 256 {
        least[byte] = match byte as u8 & !SHORT {
            57..=62 => 16,
            0..=78 => 17,
            _ => 0,
        };
        byte += 1;
    }
    least
};

/// Of the records of an image: all long, or not.
#[derive(Debug, Clone, Copy, PartialEq, Eq)]
pub enum Lengths {
    Long,
    Mixed,
}

/// Rule 3: the records, where rule 2 holds.
fn records(image: &[u8]) -> Result<Lengths, Refusal> {
    let start = 4 + 12 * word(image, 0) as usize;
    let mut bytes = 0;
    for (k, [byte, c, a, b, ..]) in image[start..].as_chunks::<8>().0.iter().enumerate() {
        if *c > 15 || *a > 15 || *b >= LEAST_REFUSED[*byte as usize] {
            return Err(Refusal { number: 3, place: k as u32 });
        }
        bytes |= byte;
    }
    Ok(if bytes & SHORT == 0 { Lengths::Long } else { Lengths::Mixed })
}

/// Rules 2 and 3.
pub fn image(image: &[u8]) -> Result<(), Refusal> {
    table(image)?;
    records(image).map(|_| ())
}

/// Rules 5 and 6: the free list, then the used one, where rules 1 and 13 hold.
pub fn lists(windows: &Windows<impl AsRef<[u8]>>, fcx: u32, pcxi: u32) -> Result<(), Refusal> {
    let (mut met, mut met_in_second) = ([false; 1024], [false; 1024]);
    for head in [fcx, pcxi] {
        let mut link = head & 0xF_FFFF;
        while link != 0 {
            let area = address_of(link);
            let met = match windows.find(area, 64) {
                Some(Place::First(at)) => &mut met[at / 64],
                Some(Place::Second(at)) => &mut met_in_second[at / 64],
                None => return refuse(5, 0),
            };
            if std::mem::replace(met, true) {
                return refuse(6, 0);
            }
            link = u32::from_le_bytes(*windows.part(area).unwrap()) & 0xF_FFFF;
        }
    }
    Ok(())
}

/// Rules 1, 13 and 2 to 4.
pub fn accept(lent: &Windows<impl AsRef<[u8]>>, bytes: &[u8], pc: u32) -> Result<Lengths, Refusal> {
    windows(lent)?;
    table(bytes)?;
    let lengths = records(bytes)?;
    if pc % 2 == 1 {
        return Err(Refusal { number: 4, place: 0 });
    }
    Ok(lengths)
}

/// The same without the lengths.
pub fn step(lent: &Windows<impl AsRef<[u8]>>, bytes: &[u8], pc: u32) -> Result<(), Refusal> {
    accept(lent, bytes, pc).map(|_| ())
}

/// All seven rules.
pub fn start(lent: &Windows<impl AsRef<[u8]>>, bytes: &[u8], pc: u32, fcx: u32, pcxi: u32) -> Result<(), Refusal> {
    step(lent, bytes, pc)?;
    lists(lent, fcx, pcxi)
}
