//! The records of a zone as an uncompressed message has them.

use crate::text::Text;

/// The records of a zone in canonical order.
#[derive(Debug, PartialEq, Eq)]
pub struct WireRecords {
    pub(crate) text: Text,
    pub(crate) count: u64,
}

impl WireRecords {
    /// The octets: each record as an uncompressed message has it (RFC 1035 3.2.1).
    pub fn octets(&self) -> &[u8] {
        &self.text
    }

    /// How many there are.
    pub fn count(&self) -> u64 {
        self.count
    }

    /// Goes over the records, which borrow the octets.
    pub fn iter(&self) -> Records<'_> {
        Records { left: &self.text }
    }
}

impl<'a> IntoIterator for &'a WireRecords {
    type Item = Record<'a>;
    type IntoIter = Records<'a>;

    fn into_iter(self) -> Records<'a> {
        self.iter()
    }
}

/// A record. Owner and data are in wire format.
#[derive(Clone, Copy, Debug, PartialEq, Eq)]
pub struct Record<'a> {
    /// The owner, uncompressed, with its letters in lower case.
    pub owner: &'a [u8],
    /// The number of the type.
    pub rdtype: u16,
    /// The number of the class.
    pub rdclass: u16,
    /// The TTL in seconds.
    pub ttl: u32,
    /// The RDATA, with names uncompressed.
    pub rdata: &'a [u8],
}

/// Goes over the records of a zone.
#[derive(Clone, Debug)]
pub struct Records<'a> {
    left: &'a [u8],
}

impl<'a> Iterator for Records<'a> {
    type Item = Record<'a>;

    fn next(&mut self) -> Option<Record<'a>> {
        let mut end = 0;
        while *self.left.get(end)? != 0 {
            end += 1 + usize::from(self.left[end]);
        }
        let (owner, left) = self.left.split_at(end + 1);
        let (head, left) = left.split_at_checked(10)?;
        let number = |at: usize| u16::from_be_bytes([head[at], head[at + 1]]);
        let (rdata, left) = left.split_at_checked(usize::from(number(8)))?;
        self.left = left;
        let ttl = u32::from(number(4)) << 16 | u32::from(number(6));
        Some(Record { owner, rdtype: number(0), rdclass: number(2), ttl, rdata })
    }
}
