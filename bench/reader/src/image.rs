//! A world for the original that answers and keeps no question: names by a
//! hash, regions by a binary search.

use std::collections::HashMap;

use oracle::{emulate, files};

pub struct Image {
    /// Address and size, which is 0 where it is untold.
    symbols: HashMap<String, (u64, u8)>,
    regions: Vec<(u64, Vec<u8>)>,
}

impl Image {
    pub fn new(world: &files::World) -> Self {
        let symbol = |s: &files::Symbol| (s.name.clone(), (s.address, s.size));
        let region = |r: &files::Region| (r.address, r.bytes.clone());
        Self {
            symbols: world.symbols.iter().map(symbol).collect(),
            regions: world.regions.iter().map(region).collect(),
        }
    }
}

impl emulate::World for Image {
    fn read(&self, address: u64, len: usize) -> Option<Vec<u8>> {
        let after = self.regions.partition_point(|(start, _)| *start <= address);
        let mut found = Vec::with_capacity(len);
        let mut next = address;
        for (start, bytes) in &self.regions[after.checked_sub(1)?..] {
            let offset = usize::try_from(next.wrapping_sub(*start)).ok()?;
            if next < *start || offset >= bytes.len() || found.len() == len {
                break;
            }
            let rest = &bytes[offset..];
            let here = rest.len().min(len - found.len());
            found.extend_from_slice(&rest[..here]);
            next = next.wrapping_add(here as u64);
        }
        (!found.is_empty()).then_some(found)
    }

    fn address_of(&self, name: &str) -> Option<u64> {
        self.symbols.get(name).map(|(address, _)| *address)
    }

    fn size_of(&self, name: &str) -> Option<u64> {
        let (_, size) = self.symbols.get(name)?;
        (*size != 0).then_some(u64::from(*size))
    }
}
