//! Reading the fields of a frame, high byte first.

use crate::refusal::Refusal;

/// A frame and how far it has been read.
#[derive(Clone, Debug)]
pub struct Frame<'a> {
    bytes: &'a [u8],
    at: usize,
}

impl<'a> Frame<'a> {
    pub fn new(bytes: &'a [u8]) -> Self {
        Frame { bytes, at: 0 }
    }

    /// A frame read from an offset on; an offset past the end leaves no field to read.
    pub fn from_offset(bytes: &'a [u8], at: usize) -> Self {
        Frame { bytes, at: at.min(bytes.len()) }
    }

    pub fn at(&self) -> usize {
        self.at
    }

    pub fn left(&self) -> usize {
        self.bytes.len() - self.at
    }

    /// The next bytes, or 2: the frame ends before the field is complete.
    pub fn bytes(&mut self, count: usize) -> Result<&'a [u8], Refusal> {
        if self.left() < count {
            return Err(Refusal::Frame);
        }
        let taken = &self.bytes[self.at..self.at + count];
        self.at += count;
        Ok(taken)
    }

    pub fn u8(&mut self) -> Result<u8, Refusal> {
        Ok(self.bytes(1)?[0])
    }

    pub fn u16(&mut self) -> Result<u16, Refusal> {
        let bytes = self.bytes(2)?;
        Ok(u16::from_be_bytes([bytes[0], bytes[1]]))
    }

    pub fn u32(&mut self) -> Result<u32, Refusal> {
        let bytes = self.bytes(4)?;
        Ok(u32::from_be_bytes([bytes[0], bytes[1], bytes[2], bytes[3]]))
    }

    /// The byte that begins every frame. An empty frame has none: 2 (decision 2).
    pub fn kind(&mut self, wanted: u8) -> Result<(), Refusal> {
        if self.u8()? != wanted {
            return Err(Refusal::Frame);
        }
        Ok(())
    }

    /// Bytes left over are looked at last (document 01, Order; decision 1).
    pub fn end(&self) -> Result<(), Refusal> {
        if self.left() > 0 {
            return Err(Refusal::Frame);
        }
        Ok(())
    }
}
