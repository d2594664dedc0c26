//! Document 01, 'Records': the layout of one record, read and written.

use super::refusals::{require, CUT_OFF, WRONG_KIND, WRONG_LENGTH};

/// The record that is due, with what its length depends on: 'looked up by kind and version; kinds 5 and 6 add their part for n'.
#[derive(Clone, Copy)]
pub(super) enum Due {
    Path,
    Stop { version: u16 },
    End,
    Order,
    Stops { n: usize },
    Forks { n: usize },
}

impl Due {
    /// 'Kind'
    pub(super) fn kind(self) -> u16 {
        match self {
            Due::Path => 1,
            Due::Stop { .. } => 2,
            Due::End => 3,
            Due::Order => 4,
            Due::Stops { .. } => 5,
            Due::Forks { .. } => 6,
        }
    }

    /// 'Length': 6; '16 or 18', and of version 6 20; 2; 4; '10 + 2n'; '2 + ceil(n/8)'.
    pub(super) fn length(self) -> usize {
        match self {
            Due::Path => 6,
            Due::Stop { version: 4 } => 16,
            Due::Stop { version: 5 } => 18,
            Due::Stop { .. } => 20,
            Due::End => 2,
            Due::Order => 4,
            Due::Stops { n } => 10 + 2 * n,
            Due::Forks { n } => 2 + n.div_ceil(8),
        }
    }

    /// 'A record is a 2-byte length counting the bytes after it': the bytes of the whole record.
    pub(super) fn bytes(self) -> usize {
        2 + self.length()
    }
}

/// A record's content: the fields that have not been taken. 'All fields are little-endian; coordinates are two's complement.'
pub(super) struct Fields<'a>(&'a [u8]);

impl<'a> Fields<'a> {
    /// The next bytes. The record's length has been tested, so they are there.
    pub(super) fn bytes(&mut self, count: usize) -> &'a [u8] {
        let (field, rest) = self.0.split_at(count);
        self.0 = rest;
        field
    }

    fn field<const N: usize>(&mut self) -> [u8; N] {
        self.bytes(N).try_into().expect("as many as asked for")
    }

    pub(super) fn u16(&mut self) -> u16 {
        u16::from_le_bytes(self.field())
    }

    pub(super) fn u64(&mut self) -> u64 {
        u64::from_le_bytes(self.field())
    }

    pub(super) fn i32(&mut self) -> i32 {
        i32::from_le_bytes(self.field())
    }
}

/// A file's bytes that have not been read.
pub(super) struct Rest<'a>(pub(super) &'a [u8]);

impl<'a> Rest<'a> {
    /// 'Each record: 4 bytes present (1), kind (3), length (2), bytes present (1), fields.' Reads one record up to its fields.
    pub(super) fn record(&mut self, due: Due) -> Result<Fields<'a>, u16> {
        require(self.0.len() >= 4, CUT_OFF)?;
        let mut head = Fields(self.0);
        let (length, kind) = (usize::from(head.u16()), head.u16());
        require(kind == due.kind(), WRONG_KIND)?;
        require(length == due.length(), WRONG_LENGTH)?;
        require(self.0.len() >= due.bytes(), CUT_OFF)?;
        let (record, rest) = self.0.split_at(due.bytes());
        self.0 = rest;
        Ok(Fields(&record[4..]))
    }
}

/// 'A record is a 2-byte length counting the bytes after it, a 2-byte kind, the content.' Adds one to a file.
pub(super) fn add(file: &mut Vec<u8>, due: Due, fields: &[&[u8]]) {
    let content = fields.concat();
    assert_eq!(due.length(), 2 + content.len(), "a record of kind {}", due.kind());
    let length = u16::try_from(due.length()).expect("k is at most 10");
    file.extend(length.to_le_bytes());
    file.extend(due.kind().to_le_bytes());
    file.extend(content);
}
