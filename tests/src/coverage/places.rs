//! Where the records of an accepted image lie.

use crate::model::checks;
use crate::model::image::{bodies, Body};

/// What an address is.
#[derive(Debug, Clone, Copy, PartialEq, Eq)]
pub enum Place {
    /// A record's first one: the body, and the record's number in it.
    Record(usize, usize),
    /// Within a long record.
    Within,
    /// Past a body's last record, where no other body begins.
    End,
    Elsewhere,
}

/// Of the records of an image, or of a body.
#[derive(Debug, Clone, Copy, PartialEq, Eq)]
pub enum Mix {
    Long,
    Short,
    Both,
}

fn mix(bodies: &[Body]) -> Mix {
    let has = |length: u32| bodies.iter().flat_map(|b| &b.records).any(|record| record.length() == length);
    match (has(4), has(2)) {
        (true, true) => Mix::Both,
        (true, false) => Mix::Long,
        _ => Mix::Short,
    }
}

struct Starts {
    /// Where the records begin, and last the end.
    of_records: Vec<u32>,
    mix: Mix,
}

pub struct Places {
    bodies: Vec<Starts>,
    pub mix: Mix,
    /// Where a body begins right after another one, and whether that is so for short records alone.
    touching: Vec<(u32, bool)>,
    /// Whether four addresses for each record would pass segment E.
    pub below_e_by_short: bool,
}

/// Four addresses for each record.
fn long_end(body: &Body) -> u64 {
    body.load as u64 + 4 * body.records.len() as u64
}

impl Places {
    /// Of an image that rules 2 and 3 accept.
    pub fn of(image: &[u8]) -> Option<Places> {
        checks::image(image).ok()?;
        let all = bodies(image);
        let pairs = all.windows(2).filter(|pair| pair[0].end() == pair[1].load);
        let touching = pairs.map(|pair| (pair[1].load, long_end(&pair[0]) > pair[1].load as u64)).collect();
        let starts = |body: &Body| Starts { of_records: body.addresses(), mix: mix(std::slice::from_ref(body)) };
        Some(Places {
            bodies: all.iter().map(starts).collect(),
            mix: mix(&all),
            touching,
            below_e_by_short: all.iter().any(|body| long_end(body) > 0xE000_0000),
        })
    }

    pub fn touching_by_short(&self) -> bool {
        self.touching.iter().any(|(_, by_short)| *by_short)
    }

    pub fn find(&self, address: u32) -> Place {
        let mut place = Place::Elsewhere;
        for (k, body) in self.bodies.iter().enumerate() {
            let end = body.of_records.len() - 1;
            match body.of_records.binary_search(&address) {
                Ok(number) if number == end => place = Place::End,
                Ok(number) => return Place::Record(k, number),
                Err(number) if number == 0 || number > end => {}
                Err(_) => return Place::Within,
            }
        }
        place
    }

    /// The length of the record that begins at an address.
    pub fn length(&self, address: u32) -> Option<u32> {
        match self.find(address) {
            Place::Record(body, k) => {
                let starts = &self.bodies[body].of_records;
                Some(starts[k + 1] - starts[k])
            }
            _ => None,
        }
    }

    /// Whether a body begins at an address right after another one, and whether for short records alone.
    pub fn touches(&self, address: u32) -> Option<bool> {
        self.touching.iter().find(|(load, _)| *load == address).map(|(_, by_short)| *by_short)
    }

    /// How many records lie between two that are in one body of both lengths, and whether the way is forward.
    pub fn way(&self, from: u32, to: u32) -> Option<(usize, bool)> {
        match (self.find(from), self.find(to)) {
            (Place::Record(body, k), Place::Record(other, l))
                if body == other && self.bodies[body].mix == Mix::Both =>
            {
                Some((k.abs_diff(l), k < l))
            }
            _ => None,
        }
    }
}
