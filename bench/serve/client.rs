//! Measures a broker over TCP: records produced and fetched in a second, and round trips of a small request.
//!
//!     client ADDRESS USER PASSWORD produce plain|idempotent|transactional BATCH_BYTES TOTAL_BYTES
//!     client ADDRESS USER PASSWORD produces CONNECTIONS BATCH_BYTES TOTAL_BYTES
//!     client ADDRESS USER PASSWORD fetch BATCH_BYTES TOTAL_BYTES
//!     client ADDRESS USER PASSWORD trips CONNECTIONS TRIPS
//!
//! It speaks to partition 0 of the topic `b`, and `produces` over its nth connection to that of `bn`, from `b0` on, so many
//! bytes over each, in plain batches. With `-` for the user there is no login. It prints one number.

mod crc32c;

use crc32c::crc32c;
use std::env;
use std::io::{BufReader, Read, Result, Write};
use std::net::TcpStream;
use std::thread;
use std::time::{Duration, Instant};

const RECORD: usize = 100; // bytes of a value
const IN_FLIGHT: usize = 5; // requests
const OF_A_TRANSACTION: u64 = 10_000; // records

const TOPIC: &str = "b";

const PRODUCE: (i16, i16) = (0, 3);
const FETCH: (i16, i16) = (1, 4);
const METADATA: (i16, i16) = (3, 1);
const HANDSHAKE: (i16, i16) = (17, 1);
const INIT_PRODUCER_ID: (i16, i16) = (22, 0);
const ADD_PARTITIONS: (i16, i16) = (24, 0);
const END_TXN: (i16, i16) = (26, 0);
const AUTHENTICATE: (i16, i16) = (36, 0);

/// Values appended as they travel.
#[derive(Default)]
struct Out(Vec<u8>);

impl Out {
    fn i8(mut self, it: i8) -> Out {
        self.0.extend(it.to_be_bytes());
        self
    }
    fn i16(mut self, it: i16) -> Out {
        self.0.extend(it.to_be_bytes());
        self
    }
    fn i32(mut self, it: i32) -> Out {
        self.0.extend(it.to_be_bytes());
        self
    }
    fn i64(mut self, it: i64) -> Out {
        self.0.extend(it.to_be_bytes());
        self
    }
    fn text(mut self, it: &str) -> Out {
        self = self.i16(it.len() as i16);
        self.0.extend(it.as_bytes());
        self
    }
    fn bytes(mut self, it: &[u8]) -> Out {
        self = self.i32(it.len() as i32);
        self.0.extend(it);
        self
    }
    /// The one partition of a topic, in arrays of one.
    fn partition_of(self, topic: &str) -> Out {
        self.i32(1).text(topic).i32(1).i32(0)
    }
    fn partition(self) -> Out {
        self.partition_of(TOPIC)
    }
}

fn zigzag(out: &mut Vec<u8>, it: i64) {
    let mut it = (it << 1 ^ it >> 63) as u64;
    while it > 127 {
        out.push(it as u8 | 128);
        it >>= 7;
    }
    out.push(it as u8);
}

/// Who produces: an id, an epoch and whether in transactions.
#[derive(Clone, Copy)]
struct Producer {
    id: i64,
    epoch: i16,
    transactional: bool,
}

/// A record batch of so many bytes at most, and the number of its records.
fn batch(size: usize, producer: Producer) -> (Vec<u8>, i32) {
    let mut records = Vec::new();
    let mut count = 0i64;
    loop {
        let mut one = vec![0, 0];
        zigzag(&mut one, count);
        zigzag(&mut one, -1);
        zigzag(&mut one, RECORD as i64);
        one.extend([b'a' + (count % 26) as u8; RECORD]);
        one.push(0);
        if 61 + records.len() + one.len() + 2 > size && count > 0 {
            break;
        }
        zigzag(&mut records, one.len() as i64);
        records.append(&mut one);
        count += 1;
    }
    let attributes = if producer.transactional { 16 } else { 0 };
    let head = Out::default().i64(0).i32(records.len() as i32 + 49).i32(0).i8(2).i32(0);
    let head = head.i16(attributes).i32(count as i32 - 1).i64(0).i64(0);
    let mut whole = head.i64(producer.id).i16(producer.epoch).i32(-1).i32(count as i32).0;
    whole.append(&mut records);
    seal(&mut whole);
    (whole, count as i32)
}

/// Gives a batch its sum.
fn seal(batch: &mut [u8]) {
    let sum = crc32c(&batch[21..]);
    batch[17..21].copy_from_slice(&sum.to_be_bytes());
}

/// A connection to the broker.
struct Connection {
    input: BufReader<TcpStream>,
    output: TcpStream,
    correlation: i32,
    response: Vec<u8>,
}

impl Connection {
    fn open(address: &str, user: &str, password: &str) -> Result<Connection> {
        let output = TcpStream::connect(address)?;
        output.set_nodelay(true)?;
        let input = BufReader::with_capacity(1 << 16, output.try_clone()?);
        let mut it = Connection { input, output, correlation: 0, response: Vec::new() };
        if user != "-" {
            it.ask(HANDSHAKE, &Out::default().text("PLAIN").0)?;
            it.ask(AUTHENTICATE, &Out::default().bytes(format!("\0{user}\0{password}").as_bytes()).0)?;
            assert_eq!(it.i16(4), 0, "the login is refused");
        }
        Ok(it)
    }

    fn frame(&mut self, api: (i16, i16), body: &[u8]) -> Vec<u8> {
        self.correlation += 1;
        let head = Out::default().i32(body.len() as i32 + 10).i16(api.0).i16(api.1).i32(self.correlation);
        let mut frame = head.i16(-1).0;
        frame.extend(body);
        frame
    }

    fn receive(&mut self) -> Result<()> {
        let mut size = [0; 4];
        self.input.read_exact(&mut size)?;
        self.response.resize(i32::from_be_bytes(size) as usize, 0);
        self.input.read_exact(&mut self.response)
    }

    fn ask(&mut self, api: (i16, i16), body: &[u8]) -> Result<()> {
        let frame = self.frame(api, body);
        self.output.write_all(&frame)?;
        self.receive()
    }

    fn i16(&self, at: usize) -> i16 {
        i16::from_be_bytes(self.response[at..at + 2].try_into().unwrap())
    }

    fn i32(&self, at: usize) -> i32 {
        i32::from_be_bytes(self.response[at..at + 4].try_into().unwrap())
    }

    fn i64(&self, at: usize) -> i64 {
        i64::from_be_bytes(self.response[at..at + 8].try_into().unwrap())
    }

    /// A producer id: without one, of its own, or of the transactional id `t`.
    fn producer(&mut self, kind: &str) -> Result<Producer> {
        let transactional = kind == "transactional";
        if kind == "plain" {
            return Ok(Producer { id: -1, epoch: -1, transactional });
        }
        let body = Out::default();
        let body = if transactional { body.text("t") } else { body.i16(-1) };
        // (a mock's coordinator is not ready at once)
        for _ in 0..100 {
            self.ask(INIT_PRODUCER_ID, &body.0.clone().into_out().i32(60_000).0)?;
            if self.i16(8) == 0 {
                return Ok(Producer { id: self.i64(10), epoch: self.i16(18), transactional });
            }
            thread::sleep(Duration::from_millis(50));
        }
        panic!("InitProducerId is answered {}", self.i16(8))
    }

    /// Where a transaction begins.
    fn begin(&mut self, producer: Producer) -> Result<()> {
        let body = Out::default().text("t").i64(producer.id).i16(producer.epoch).partition();
        loop {
            self.ask(ADD_PARTITIONS, &body.0)?;
            // throttle, one topic, its name, one partition, its index
            match self.i16(4 + 4 + 4 + 3 + 4 + 4) {
                0 => return Ok(()),
                51 => thread::sleep(Duration::from_micros(200)), // the markers of the one before are pending
                code => panic!("AddPartitionsToTxn is answered {code}"),
            }
        }
    }

    fn commit(&mut self, producer: Producer) -> Result<()> {
        let body = Out::default().text("t").i64(producer.id).i16(producer.epoch).i8(1);
        self.ask(END_TXN, &body.0)?;
        assert_eq!(self.i16(8), 0, "EndTxn is refused");
        Ok(())
    }
}

trait IntoOut {
    fn into_out(self) -> Out;
}

impl IntoOut for Vec<u8> {
    fn into_out(self) -> Out {
        Out(self)
    }
}

/// Records a second over one connection to a topic.
fn produce(connection: &mut Connection, topic: &str, kind: &str, size: usize, total: usize) -> Result<f64> {
    let producer = connection.producer(kind)?;
    let (mut batch, count) = batch(size, producer);
    let name = Out::default();
    let name = if producer.transactional { name.text("t") } else { name.i16(-1) };
    let head = name.i16(-1).i32(30_000).partition_of(topic).0;
    let requests = (total / batch.len()).max(IN_FLIGHT);
    let (mut sequence, mut waits, mut open) = (0i32, 0usize, 0u64);
    let start = Instant::now();
    for _ in 0..requests {
        if producer.transactional && open == 0 {
            connection.begin(producer)?;
        }
        if producer.id >= 0 {
            batch[53..57].copy_from_slice(&sequence.to_be_bytes());
            seal(&mut batch);
            sequence = sequence.wrapping_add(count) & i32::MAX;
        }
        let body = head.clone().into_out().bytes(&batch).0;
        let frame = connection.frame(PRODUCE, &body);
        connection.output.write_all(&frame)?;
        waits += 1;
        open += count as u64;
        let ends = producer.transactional && open >= OF_A_TRANSACTION;
        while waits == IN_FLIGHT || ends && waits > 0 {
            produced(connection)?;
            waits -= 1;
        }
        if ends {
            connection.commit(producer)?;
            open = 0;
        }
    }
    while waits > 0 {
        produced(connection)?;
        waits -= 1;
    }
    Ok(requests as f64 * f64::from(count) / start.elapsed().as_secs_f64())
}

fn produced(connection: &mut Connection) -> Result<()> {
    connection.receive()?;
    // the correlation id, one topic, its name, one partition, its index
    let name = connection.i16(4 + 4) as usize;
    let code = connection.i16(4 + 4 + 2 + name + 4 + 4);
    assert_eq!(code, 0, "Produce is refused");
    Ok(())
}

/// Records a second over so many connections at once, each to a topic of its own.
fn produces(address: &str, user: &str, password: &str, connections: usize, size: usize, total: usize) -> Result<f64> {
    let mut all = Vec::new();
    for _ in 0..connections {
        all.push(Connection::open(address, user, password)?);
    }
    let plain = Producer { id: -1, epoch: -1, transactional: false };
    let (whole, count) = batch(size, plain);
    let start = Instant::now();
    let threads: Vec<_> = all
        .into_iter()
        .enumerate()
        .map(|(nth, mut connection)| {
            thread::spawn(move || produce(&mut connection, &format!("{TOPIC}{nth}"), "plain", size, total))
        })
        .collect();
    for it in threads {
        it.join().unwrap()?;
    }
    let requests = (total / whole.len()).max(IN_FLIGHT) * connections;
    Ok(requests as f64 * f64::from(count) / start.elapsed().as_secs_f64())
}

/// Records a second, of four megabytes that are fetched again and again.
fn fetch(connection: &mut Connection, size: usize, total: usize) -> Result<f64> {
    produce(connection, TOPIC, "plain", size, 4 << 20)?;
    let (mut records, mut bytes, mut offset) = (0u64, 0usize, 0i64);
    let start = Instant::now();
    while bytes < total {
        let body = Out::default().i32(-1).i32(0).i32(1).i32(1 << 21).i8(1);
        connection.ask(FETCH, &body.partition().i64(offset).i32(1 << 21).0)?;
        // throttle, one topic, its name, one partition: its index, code, two ends, the aborted ones, the records
        let at = 4 + 4 + 4 + 3 + 4;
        assert_eq!(connection.i16(at + 4), 0, "Fetch is refused");
        let aborted = connection.i32(at + 22).max(0) as usize;
        let mut at = at + 26 + 16 * aborted + 4;
        if at >= connection.response.len() {
            offset = 0;
            continue;
        }
        bytes += connection.response.len() - at;
        while at + 61 <= connection.response.len() {
            let length = connection.i32(at + 8) as usize + 12;
            if at + length > connection.response.len() {
                break;
            }
            let count = connection.i32(at + 57);
            offset = connection.i64(at) + i64::from(count);
            records += count as u64;
            at += length;
        }
    }
    Ok(records as f64 / start.elapsed().as_secs_f64())
}

/// Round trips a second over so many connections at once.
fn trips(address: &str, user: &str, password: &str, connections: usize, trips: usize) -> Result<f64> {
    let mut all = Vec::new();
    for _ in 0..connections {
        all.push(Connection::open(address, user, password)?);
    }
    let start = Instant::now();
    let threads: Vec<_> = all
        .into_iter()
        .map(|mut connection| {
            thread::spawn(move || -> Result<()> {
                let body = Out::default().i32(1).text("b").0;
                for _ in 0..trips {
                    connection.ask(METADATA, &body)?;
                }
                Ok(())
            })
        })
        .collect();
    for it in threads {
        it.join().unwrap()?;
    }
    Ok((trips * connections) as f64 / start.elapsed().as_secs_f64())
}

fn main() -> Result<()> {
    let words: Vec<String> = env::args().skip(1).collect();
    let words: Vec<&str> = words.iter().map(String::as_str).collect();
    let number = |word: &str| word.parse::<usize>().expect("a number");
    let told = match words[..] {
        [address, user, password, "produce", kind, size, total] => {
            let connection = &mut Connection::open(address, user, password)?;
            produce(connection, TOPIC, kind, number(size), number(total))?
        }
        [address, user, password, "produces", connections, size, total] => {
            produces(address, user, password, number(connections), number(size), number(total))?
        }
        [address, user, password, "fetch", size, total] => {
            fetch(&mut Connection::open(address, user, password)?, number(size), number(total))?
        }
        [address, user, password, "trips", connections, count] => {
            trips(address, user, password, number(connections), number(count))?
        }
        _ => panic!("see the head of client.rs for its words"),
    };
    println!("{told:.0}");
    Ok(())
}
