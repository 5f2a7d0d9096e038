//! A call in words.

use super::file;

/// A call in words.
#[derive(Debug, Clone)]
pub struct Call {
    pub steps: u32,
    pub depth: u32,
    pub arguments: Vec<u64>,
}

impl Call {
    /// A call with `Limits`' usual depth.
    pub fn new(steps: u32, arguments: &[u64]) -> Self {
        Self {
            steps,
            depth: 8,
            arguments: arguments.to_vec(),
        }
    }

    /// The call file.
    pub fn file(&self) -> Vec<u8> {
        file(&self.bodies())
    }

    pub fn bodies(&self) -> Vec<Vec<u8>> {
        let mut out = Vec::new();
        out.extend(self.steps.to_le_bytes());
        out.extend(self.depth.to_le_bytes());
        for argument in &self.arguments {
            out.extend(argument.to_le_bytes());
        }
        vec![out]
    }
}
