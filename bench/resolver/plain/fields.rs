//! The fields of records, as docs/graph-file.md spells them.

use super::graph::Place;
use super::refusals::{Reason, Refusal};
use super::strings::{FeatureString, check_name, read_string};

/// A record, and the bytes of it that are not read yet.
pub struct Record<'a> {
    pub kind: u16,
    number: u32,
    start: usize,
    end: usize,
    rest: &'a [u8],
}

impl<'a> Record<'a> {
    /// The record that starts at a place of the file.
    #[inline]
    pub fn at(file: &'a [u8], start: usize, number: u32) -> Result<Record<'a>, Refusal> {
        let fault = |reason| Refusal {
            reason,
            record: number,
            byte: start,
        };
        let (head, rest) = file[start..]
            .split_first_chunk::<4>()
            .ok_or(fault(Reason::Cut))?;
        let length = u32::from_le_bytes(*head) as usize;
        let record = rest.get(..length).ok_or(fault(Reason::Cut))?;
        let (kind, rest) = record
            .split_first_chunk::<2>()
            .ok_or(fault(Reason::Ragged))?;
        Ok(Record {
            number,
            start,
            kind: u16::from_le_bytes(*kind),
            end: start + 4 + length,
            rest,
        })
    }

    /// A refusal of this record, at a byte of the file.
    #[cold]
    pub fn fault(&self, reason: Reason, byte: usize) -> Refusal {
        Refusal {
            reason,
            record: self.number,
            byte,
        }
    }

    /// Its number, and where it starts in the file.
    pub fn beginning(&self) -> Place {
        Place {
            record: self.number,
            start: self.start as u32,
        }
    }

    /// Where it starts in the file.
    pub fn start(&self) -> usize {
        self.start
    }

    /// Where in the file the next field stands.
    #[inline]
    pub fn next(&self) -> usize {
        self.end - self.rest.len()
    }

    #[inline]
    fn array<const N: usize>(&mut self) -> Result<[u8; N], Refusal> {
        let Some((bytes, rest)) = self.rest.split_first_chunk::<N>() else {
            return Err(self.fault(Reason::Ragged, self.next()));
        };
        self.rest = rest;
        Ok(*bytes)
    }

    /// A number of two bytes.
    #[inline]
    pub fn pair(&mut self) -> Result<u16, Refusal> {
        Ok(u16::from_le_bytes(self.array()?))
    }

    /// A number of one byte.
    #[inline]
    pub fn byte(&mut self) -> Result<u8, Refusal> {
        Ok(self.array::<1>()?[0])
    }

    /// A number of one byte that is at most this.
    #[inline]
    pub fn up_to(&mut self, most: u8) -> Result<u8, Refusal> {
        match self.byte()? {
            byte if byte <= most => Ok(byte),
            _ => Err(self.fault(Reason::Mark, self.next() - 1)),
        }
    }

    /// A switch.
    #[inline]
    pub fn switch(&mut self) -> Result<bool, Refusal> {
        Ok(self.up_to(1)? == 1)
    }

    /// A string of any content.
    #[inline]
    fn string(&mut self) -> Result<&'a [u8], Refusal> {
        let after = self.rest.split_first();
        let string = after.and_then(|(count, rest)| rest.split_at_checked(usize::from(*count)));
        let Some((string, rest)) = string else {
            return Err(self.fault(Reason::Ragged, self.next()));
        };
        self.rest = rest;
        Ok(string)
    }

    /// A string that is a name.
    #[inline]
    pub fn name(&mut self) -> Result<&'a [u8], Refusal> {
        let text = self.string()?;
        check_name(text)
            .map_err(|prefix| self.fault(Reason::Name, self.next() - text.len() + prefix))?;
        Ok(text)
    }

    /// A string that is a feature string.
    #[inline]
    pub fn feature_string(&mut self) -> Result<FeatureString<'a>, Refusal> {
        let text = self.string()?;
        read_string(text)
            .map_err(|prefix| self.fault(Reason::Name, self.next() - text.len() + prefix))
    }

    /// Where the record ends, if all of it is read.
    #[inline]
    pub fn close(&self) -> Result<usize, Refusal> {
        match self.rest {
            [] => Ok(self.end),
            _ => Err(self.fault(Reason::Ragged, self.next())),
        }
    }
}
