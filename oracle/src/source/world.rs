//! A world in words.

use std::collections::{BTreeSet, HashMap};

use super::{file, numbered, strings};

/// A world in words.
#[derive(Debug, Clone, Default)]
pub struct World {
    pub symbols: Vec<Symbol>,
    /// Address and bytes, ascending.
    pub regions: Vec<(u64, Vec<u8>)>,
    pub spare_names: Vec<String>,
}

#[derive(Debug, Clone)]
pub struct Symbol {
    pub name: String,
    pub size: u8,
    pub address: u64,
}

impl World {
    pub fn symbol(mut self, name: &str, size: u8, address: u64) -> Self {
        self.symbols.push(Symbol {
            name: name.to_string(),
            size,
            address,
        });
        self
    }

    pub fn region(mut self, address: u64, bytes: &[u8]) -> Self {
        self.regions.push((address, bytes.to_vec()));
        self
    }

    /// The world file.
    pub fn file(&self) -> Vec<u8> {
        file(&self.bodies())
    }

    pub fn bodies(&self) -> Vec<Vec<u8>> {
        let used = self.symbols.iter().map(|symbol| &symbol.name);
        let names: BTreeSet<String> = used.chain(&self.spare_names).cloned().collect();
        let names: Vec<String> = names.into_iter().collect();
        vec![
            strings(&names),
            self.symbol_body(&numbered(&names)),
            self.region_body(),
        ]
    }

    fn symbol_body(&self, numbers: &HashMap<String, u16>) -> Vec<u8> {
        let mut symbols = self.symbols.clone();
        symbols.sort_by(|a, b| a.name.cmp(&b.name));
        let mut out = Vec::new();
        for symbol in &symbols {
            out.extend(numbers[&symbol.name].to_le_bytes());
            out.push(symbol.size);
            out.extend(symbol.address.to_le_bytes());
        }
        out
    }

    fn region_body(&self) -> Vec<u8> {
        let mut out = Vec::new();
        for (address, bytes) in &self.regions {
            out.extend(address.to_le_bytes());
            out.extend((bytes.len() as u32).to_le_bytes());
            out.extend(bytes);
        }
        out
    }
}
