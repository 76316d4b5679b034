//! "The packed record", with the tail datum of request (e): packing, and parsing with refusals 8 and 7. Bytes are read
//! by these fields alone: nothing marks the shape that records had before, and "the old shape is no longer read".

use crate::answer::{Refusal, FIELD, LENGTH};
use crate::bits::{Reader, Writer};
use crate::constraint::Constraint;
use crate::table::{Entry, Table};

/// A record, unpacked.
#[derive(Clone, Debug, PartialEq, Eq)]
pub struct Record {
    pub p: usize,
    pub q: usize,
    pub m: usize,
    pub a: usize,
    /// The constraint start.
    pub start: usize,
    /// The tail datum: the datum of the a closing blocks (request (e)).
    pub tail: usize,
    /// All K states, those of weight 0 included.
    pub constraint: Constraint,
    pub table: Table,
}

/// The least number of bytes that a record may have: "the header now needs five bytes" (request (e)).
const HEADER_BYTES: usize = 5;

/// The fields of the first 34 bits.
#[derive(Clone, Copy, Debug, PartialEq, Eq)]
pub struct Header {
    pub p: usize,
    pub q: usize,
    /// Table states.
    pub states: usize,
    pub m: usize,
    pub a: usize,
    /// Constraint states.
    pub k: usize,
    pub start: usize,
    /// "4 bits straight after the constraint start" (request (e)).
    pub tail: usize,
}

impl Header {
    fn take(reader: &mut Reader) -> Header {
        Header {
            p: reader.take(3),
            q: reader.take(4),
            states: reader.take(7) + 1,
            m: reader.take(4),
            a: reader.take(4),
            k: reader.take(4) + 1,
            start: reader.take(4),
            tail: reader.take(4),
        }
    }

    /// p, q, the constraint start and the tail datum are in range: "a tail datum of 2^p or more is refusal 7, with the
    /// header", even where a is 0 and no block closes.
    fn in_range(&self) -> bool {
        let known = (1..=4).contains(&self.p) && (1..=8).contains(&self.q);
        known && self.start < self.k && self.tail < 1 << self.p
    }

    /// The length in bytes that the fields say.
    pub fn length(&self) -> usize {
        let bits = 34 + self.k * 2 * 5 + self.states * (1 << self.p) * (self.q + 7);
        bits.div_ceil(8)
    }
}

impl Record {
    pub fn header(&self) -> Header {
        Header {
            p: self.p,
            q: self.q,
            states: self.table.states(),
            m: self.m,
            a: self.a,
            k: self.constraint.states(),
            start: self.start,
            tail: self.tail,
        }
    }

    /// The record's bytes.
    pub fn pack(&self) -> Vec<u8> {
        let mut writer = Writer::default();
        put_header(&mut writer, &self.header());
        for next in self.constraint.next.iter().flatten() {
            writer.put(usize::from(next.is_some()), 1);
            writer.put(usize::from(next.unwrap_or(0)), 4);
        }
        for entry in self.table.rows.iter().flatten() {
            writer.put(usize::from(entry.word), self.q);
            writer.put(entry.next, 7);
        }
        writer.bytes()
    }

    /// A record from bytes. Order: "the first check is 8 below five" (request (e)), header by 7, 8, the rest by 7.
    pub fn parse(bytes: &[u8]) -> Result<Record, Refusal> {
        if bytes.len() < HEADER_BYTES {
            return Err(LENGTH);
        }
        let mut reader = Reader::of(bytes);
        let header = Header::take(&mut reader);
        if !header.in_range() {
            return Err(FIELD);
        }
        if bytes.len() != header.length() {
            return Err(LENGTH);
        }
        let constraint = take_constraint(&mut reader, header.k)?;
        let table = take_table(&mut reader, &header)?;
        if !reader.rest_is_zero() {
            return Err(FIELD);
        }
        let Header { p, q, m, a, start, tail, .. } = header;
        Ok(Record { p, q, m, a, start, tail, constraint, table })
    }
}

fn put_header(writer: &mut Writer, header: &Header) {
    writer.put(header.p, 3);
    writer.put(header.q, 4);
    writer.put(header.states - 1, 7);
    writer.put(header.m, 4);
    writer.put(header.a, 4);
    writer.put(header.k - 1, 4);
    writer.put(header.start, 4);
    writer.put(header.tail, 4);
}

/// The constraint's fields: a present state is below K, an absent one is written 0.
fn take_constraint(reader: &mut Reader, states: usize) -> Result<Constraint, Refusal> {
    let mut next = vec![[None; 2]; states];
    for place in next.iter_mut().flatten() {
        let present = reader.take(1) == 1;
        let state = reader.take(4);
        match (present, state) {
            (true, state) if state < states => *place = Some(state as u8),
            (false, 0) => {}
            _ => return Err(FIELD),
        }
    }
    Ok(Constraint { next })
}

/// The table's fields: a next state is below the number of table states.
fn take_table(reader: &mut Reader, header: &Header) -> Result<Table, Refusal> {
    let mut rows = Vec::with_capacity(header.states);
    for _ in 0..header.states {
        let mut row = Vec::with_capacity(1 << header.p);
        for _ in 0..1 << header.p {
            row.push(take_entry(reader, header)?);
        }
        rows.push(row);
    }
    Ok(Table { rows })
}

fn take_entry(reader: &mut Reader, header: &Header) -> Result<Entry, Refusal> {
    let word = reader.take(header.q) as u8;
    let next = reader.take(7);
    if next >= header.states {
        return Err(FIELD);
    }
    Ok(Entry { word, next })
}
