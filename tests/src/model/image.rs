//! Images: how to make them, and how to read them.

/// A record as the image has it.
#[derive(Debug, Clone, Copy, PartialEq, Eq)]
pub struct Record {
    pub op: u8,
    pub c: u8,
    pub a: u8,
    pub b: u8,
    pub imm: u32,
}

/// What is added to an operation's byte for the short form.
pub const SHORT: u8 = 128;

/// How many addresses a record covers: bit 7 of its byte alone tells it.
#[inline]
pub fn length(op: u8) -> u32 {
    4 >> (op >> 7)
}

impl Record {
    pub const NOP: Record = Record { op: 0, c: 0, a: 0, b: 0, imm: 0 };

    /// The same operation in its short form.
    pub fn short(self) -> Record {
        Record { op: self.op | SHORT, ..self }
    }

    pub fn length(self) -> u32 {
        length(self.op)
    }

    pub fn bytes(self) -> [u8; 8] {
        let [w, x, y, z] = self.imm.to_le_bytes();
        [self.op, self.c, self.a, self.b, w, x, y, z]
    }
}

/// A body with its load address.
#[derive(Debug, Clone)]
pub struct Body {
    pub load: u32,
    pub records: Vec<Record>,
}

impl Body {
    /// Where each record begins, and last where the code range ends.
    pub fn addresses(&self) -> Vec<u32> {
        let ends = self.records.iter().scan(self.load, |at, record| {
            *at += record.length();
            Some(*at)
        });
        [self.load].into_iter().chain(ends).collect()
    }

    /// The address past the last record.
    pub fn end(&self) -> u32 {
        self.load + self.records.iter().map(|record| record.length()).sum::<u32>()
    }
}

/// The image of some bodies: the table, then the bodies without gaps.
pub fn build(bodies: &[Body]) -> Vec<u8> {
    let mut image = (bodies.len() as u32).to_le_bytes().to_vec();
    let mut offset = 4 + 12 * bodies.len() as u32;
    for body in bodies {
        image.extend(body.load.to_le_bytes());
        image.extend((body.records.len() as u32).to_le_bytes());
        image.extend(offset.to_le_bytes());
        offset += 8 * body.records.len() as u32;
    }
    for record in bodies.iter().flat_map(|b| &b.records) {
        image.extend(record.bytes());
    }
    image
}

/// The word at a byte offset.
pub fn word(bytes: &[u8], at: usize) -> u32 {
    u32::from_le_bytes(bytes[at..at + 4].try_into().unwrap())
}

/// The bodies of an image in order.
pub fn bodies(image: &[u8]) -> Vec<Body> {
    let record = |r: &[u8]| Record { op: r[0], c: r[1], a: r[2], b: r[3], imm: word(r, 4) };
    let entries = image[4..].chunks_exact(12).take(word(image, 0) as usize);
    entries
        .map(|entry| {
            let [load, count, offset] = [0, 4, 8].map(|at| word(entry, at));
            let records = image[offset as usize..].chunks_exact(8).take(count as usize);
            Body { load, records: records.map(record).collect() }
        })
        .collect()
}

/// The record that begins at pc, of an image in order, by a walk.
pub fn record_at(image: &[u8], pc: u32) -> Option<Record> {
    bodies(image).iter().find_map(|body| {
        let place = body.addresses().iter().position(|at| *at == pc)?;
        body.records.get(place).copied()
    })
}
