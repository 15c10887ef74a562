//! What a Produce costs at least: frames are read, each batch's checksum and each of its records are checked, the bytes are
//! kept and an offset is answered. There are no rules of Kafka in it: no login, no bindings, no producers, no transactions.
//!
//!     floor
//!
//! It listens on a port of its own, which it prints, and serves each connection by a thread, until it is killed. It knows
//! Produce, version 3, with one batch for one partition of a topic, and nothing else.

#[path = "serve/crc32c.rs"]
mod crc32c;

use crc32c::crc32c;
use std::collections::HashMap;
use std::io::{BufReader, Error, ErrorKind, Read, Result, Write};
use std::net::{TcpListener, TcpStream};
use std::sync::{Arc, Mutex};
use std::thread;

const PRODUCE: i16 = 0;
const FRAME_LIMIT: usize = 104_857_600; // bytes
const BATCH_HEAD: usize = 61; // bytes before the first record
const COVERED: usize = 21; // from here on the checksum covers a batch

/// The batches of each topic's one partition, and the offset after the last one.
#[derive(Default)]
struct Log {
    frames: Vec<Vec<u8>>,
    end: i64,
}

type Logs = Arc<Mutex<HashMap<Vec<u8>, Log>>>;

/// Bytes that are taken from the front.
struct Cursor<'a>(&'a [u8]);

impl<'a> Cursor<'a> {
    fn take(&mut self, count: usize) -> Result<&'a [u8]> {
        if self.0.len() < count {
            return Err(Error::new(ErrorKind::InvalidData, "too few bytes"));
        }
        let (front, rest) = self.0.split_at(count);
        self.0 = rest;
        Ok(front)
    }

    fn i16(&mut self) -> Result<i16> {
        Ok(i16::from_be_bytes(self.take(2)?.try_into().unwrap()))
    }

    fn i32(&mut self) -> Result<i32> {
        Ok(i32::from_be_bytes(self.take(4)?.try_into().unwrap()))
    }

    /// A signed number of variable length.
    fn varint(&mut self) -> Result<i64> {
        let (mut value, mut shift) = (0u64, 0);
        loop {
            let byte = self.take(1)?[0];
            value |= u64::from(byte & 127) << shift;
            if byte < 128 {
                return Ok((value >> 1) as i64 ^ -((value & 1) as i64));
            }
            shift += 7;
            if shift > 63 {
                return Err(Error::new(ErrorKind::InvalidData, "a number that is too long"));
            }
        }
    }

    /// Bytes after their number, or nothing for -1.
    fn varint_bytes(&mut self) -> Result<&'a [u8]> {
        let length = self.varint()?;
        self.take(length.max(0) as usize)
    }
}

/// One record, whose length says where it ends.
fn check_record(cursor: &mut Cursor) -> Result<()> {
    let mut record = Cursor(cursor.varint_bytes()?);
    record.take(1)?;
    record.varint()?;
    record.varint()?;
    record.varint_bytes()?;
    record.varint_bytes()?;
    for _ in 0..record.varint()? {
        record.varint_bytes()?;
        record.varint_bytes()?;
    }
    if record.0.is_empty() { Ok(()) } else { Err(Error::new(ErrorKind::InvalidData, "a record that is too long")) }
}

/// The number of records of a batch whose checksum and records are right.
fn check(batch: &[u8]) -> Result<i64> {
    let mut head = Cursor(batch);
    let sum = u32::from_be_bytes(head.take(COVERED)?[17..].try_into().unwrap());
    if crc32c(head.0) != sum {
        return Err(Error::new(ErrorKind::InvalidData, "another checksum"));
    }
    head.take(BATCH_HEAD - COVERED - 4)?;
    let count = head.i32()?;
    for _ in 0..count {
        check_record(&mut head)?;
    }
    Ok(i64::from(count))
}

/// The answer to a Produce, whose frame is kept.
fn produce(logs: &Logs, frame: Vec<u8>) -> Result<Vec<u8>> {
    let mut cursor = Cursor(&frame);
    if cursor.i16()? != PRODUCE {
        return Err(Error::new(ErrorKind::Unsupported, "another api than Produce"));
    }
    cursor.i16()?;
    let correlation = cursor.i32()?;
    for _ in 0..2 {
        let length = cursor.i16()?; // of the client's name, and of the transactional id
        cursor.take(length.max(0) as usize)?;
    }
    cursor.take(2 + 4 + 4)?; // acks, timeout, the number of topics
    let length = cursor.i16()?;
    let name = cursor.take(length as usize)?.to_vec();
    cursor.take(4 + 4)?; // the number of partitions, and the index
    let length = cursor.i32()?;
    let count = check(cursor.take(length.max(0) as usize)?)?;
    let mut reply = [0, correlation, 1].iter().flat_map(|it: &i32| it.to_be_bytes()).collect::<Vec<u8>>();
    reply.extend((name.len() as i16).to_be_bytes());
    reply.extend(&name);
    reply.extend([0, 0, 0, 1, 0, 0, 0, 0, 0, 0]);
    let mut logs = logs.lock().unwrap();
    let log = logs.entry(name).or_default();
    reply.extend(log.end.to_be_bytes());
    log.end += count;
    log.frames.push(frame);
    drop(logs);
    reply.extend((-1i64).to_be_bytes());
    reply.extend(0i32.to_be_bytes());
    let size = reply.len() as i32 - 4;
    reply[..4].copy_from_slice(&size.to_be_bytes());
    Ok(reply)
}

fn serve(logs: &Logs, mut output: TcpStream) -> Result<()> {
    output.set_nodelay(true)?;
    let mut input = BufReader::with_capacity(1 << 16, output.try_clone()?);
    let mut size = [0; 4];
    loop {
        input.read_exact(&mut size)?;
        let size = u32::from_be_bytes(size) as usize;
        if size > FRAME_LIMIT {
            return Err(Error::new(ErrorKind::InvalidData, "a frame above the limit"));
        }
        let mut frame = Vec::with_capacity(size);
        input.by_ref().take(size as u64).read_to_end(&mut frame)?;
        output.write_all(&produce(logs, frame)?)?;
    }
}

fn main() -> Result<()> {
    let listener = TcpListener::bind("127.0.0.1:0")?;
    println!("listening on {}", listener.local_addr()?);
    let logs = Logs::default();
    for connection in listener.incoming() {
        let (logs, connection) = (logs.clone(), connection?);
        thread::spawn(move || {
            if let Err(fault) = serve(&logs, connection) {
                if fault.kind() != ErrorKind::UnexpectedEof {
                    eprintln!("floor: {fault}");
                }
            }
        });
    }
    Ok(())
}
