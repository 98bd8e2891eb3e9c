//! The two lent windows, and which of them has given bytes.

/// A window: the first of its bytes has the address `base`.
#[derive(Debug, Clone, Copy, PartialEq, Eq, Default)]
pub struct Window<B> {
    pub base: u32,
    pub bytes: B,
}

/// Where the bytes from an address on lie in a window, if it has them wholly.
#[inline(always)]
fn find(base: u32, len: usize, address: u32, size: usize) -> Option<usize> {
    let at = address.wrapping_sub(base) as usize;
    (at + size <= len).then_some(at)
}

impl<B: AsRef<[u8]>> Window<B> {
    #[inline(always)]
    fn part<const N: usize>(&self, address: u32) -> Option<&[u8; N]> {
        let bytes = self.bytes.as_ref();
        let at = find(self.base, bytes.len(), address, N)?;
        Some(bytes[at..at + N].try_into().unwrap())
    }
}

impl<B: AsMut<[u8]>> Window<B> {
    #[inline(always)]
    fn part_mut<const N: usize>(&mut self, address: u32) -> Option<&mut [u8; N]> {
        let bytes = self.bytes.as_mut();
        let at = find(self.base, bytes.len(), address, N)?;
        Some((&mut bytes[at..at + N]).try_into().unwrap())
    }
}

#[derive(Debug, Clone, Copy, PartialEq, Eq, Default)]
pub struct Windows<B> {
    pub first: Window<B>,
    pub second: Window<B>,
}

/// An offset in one of the windows.
#[derive(Debug, Clone, Copy, PartialEq, Eq)]
pub enum Place {
    First(usize),
    Second(usize),
}

/// The address of the area that a link names.
pub fn address_of(link: u32) -> u32 {
    (link & 0xF_0000) << 12 | (link & 0xFFFF) << 6
}

/// The link that names the area at an address, where one does.
pub fn link_of(address: u32) -> u32 {
    address >> 28 << 16 | address >> 6 & 0xFFFF
}

impl<B> Windows<B> {
    pub fn new(base: u32, window: B, second_base: u32, second: B) -> Windows<B> {
        Windows { first: Window { base, bytes: window }, second: Window { base: second_base, bytes: second } }
    }
}

impl<B: Default> Windows<B> {
    /// One window, and a second of length 0.
    pub fn one(base: u32, window: B) -> Windows<B> {
        Windows { first: Window { base, bytes: window }, second: Window::default() }
    }
}

impl<B: AsRef<[u8]>> Windows<B> {
    /// The bytes from an address on, if one window has them wholly.
    #[inline(always)]
    pub fn part<const N: usize>(&self, address: u32) -> Option<&[u8; N]> {
        self.first.part(address).or_else(|| self.second.part(address))
    }

    /// Where the bytes from an address on lie, if one window has them wholly.
    #[inline]
    pub fn find(&self, address: u32, size: usize) -> Option<Place> {
        let Windows { first, second } = self;
        let place = find(first.base, first.bytes.as_ref().len(), address, size).map(Place::First);
        place.or_else(|| find(second.base, second.bytes.as_ref().len(), address, size).map(Place::Second))
    }
}

impl<B: AsMut<[u8]>> Windows<B> {
    /// The same to be written.
    #[inline(always)]
    pub fn part_mut<const N: usize>(&mut self, address: u32) -> Option<&mut [u8; N]> {
        self.first.part_mut(address).or_else(|| self.second.part_mut(address))
    }

    /// The same windows, lent on.
    pub fn lent(&mut self) -> Windows<&mut [u8]> {
        let Windows { first, second } = self;
        Windows::new(first.base, first.bytes.as_mut(), second.base, second.bytes.as_mut())
    }
}
