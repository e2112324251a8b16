//! Records and big-endian numbers.

use std::io::{self, ErrorKind, Read, Write};

/// The next record's body, or none at the end of the input.
pub(crate) fn next_record(from: &mut impl Read) -> io::Result<Option<Vec<u8>>> {
    let mut length = [0_u8; 4];
    let got = read_up_to(from, &mut length)?;
    if got == 0 {
        return Ok(None);
    }
    if got < length.len() {
        return Err(ErrorKind::UnexpectedEof.into());
    }
    let mut body = vec![0_u8; u32::from_be_bytes(length) as usize];
    from.read_exact(&mut body)?;
    Ok(Some(body))
}

fn read_up_to(from: &mut impl Read, buffer: &mut [u8]) -> io::Result<usize> {
    let mut filled = 0;
    while filled < buffer.len() {
        match from.read(&mut buffer[filled..])? {
            0 => break,
            count => filled += count,
        }
    }
    Ok(filled)
}

/// The case and then its answer, as one record.
pub(crate) fn write_record(to: &mut impl Write, case: &[u8], answer: &Output) -> io::Result<()> {
    let length = u32::try_from(case.len() + answer.bytes.len()).expect("a record's length fits");
    to.write_all(&length.to_be_bytes())?;
    to.write_all(case)?;
    to.write_all(&answer.bytes)
}

/// A case being read from its start.
pub(crate) struct Input<'a> {
    rest: &'a [u8],
}

impl<'a> Input<'a> {
    pub(crate) fn new(body: &'a [u8]) -> Self {
        Self { rest: body }
    }

    fn take<const N: usize>(&mut self) -> [u8; N] {
        let (head, rest) = self.rest.split_at(N);
        self.rest = rest;
        head.try_into().expect("split at its length")
    }

    pub(crate) fn u8(&mut self) -> u8 {
        self.take::<1>()[0]
    }

    pub(crate) fn u16(&mut self) -> u16 {
        u16::from_be_bytes(self.take())
    }

    pub(crate) fn u32(&mut self) -> u32 {
        u32::from_be_bytes(self.take())
    }

    pub(crate) fn u64(&mut self) -> u64 {
        u64::from_be_bytes(self.take())
    }

    pub(crate) fn count8(&mut self) -> usize {
        usize::from(self.u8())
    }

    pub(crate) fn count16(&mut self) -> usize {
        usize::from(self.u16())
    }

    pub(crate) fn must_be_used_up(&self) {
        assert!(
            self.rest.is_empty(),
            "the case is longer than its counts say"
        );
    }
}

/// An answer being written.
#[derive(Default)]
pub(crate) struct Output {
    bytes: Vec<u8>,
}

impl Output {
    pub(crate) fn u8(&mut self, value: usize) {
        self.bytes
            .push(u8::try_from(value).expect("the answer's number fits in 1 byte"));
    }

    pub(crate) fn u16(&mut self, value: usize) {
        let value = u16::try_from(value).expect("the answer's number fits in 2 bytes");
        self.bytes.extend(value.to_be_bytes());
    }

    pub(crate) fn u32(&mut self, value: usize) {
        let value = u32::try_from(value).expect("the answer's number fits in 4 bytes");
        self.bytes.extend(value.to_be_bytes());
    }

    pub(crate) fn u64(&mut self, value: u64) {
        self.bytes.extend(value.to_be_bytes());
    }
}
