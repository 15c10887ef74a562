//! The same work in plain Rust, with the same tables.

use std::sync::Arc;
use std::time::Instant;

const BATCHES: u32 = 6_400;
const ROUNDS: u32 = 7;
const PASSES: u32 = 2_001;

/// The remainders of single bytes, each with up to 23 zero bytes after it.
static BYTE_REMAINDERS: [[u32; 256]; 24] = byte_remainders();

const fn byte_remainders() -> [[u32; 256]; 24] {
    let mut tables = [[0; 256]; 24];
    let mut byte = 0;
    while byte < 256 {
        let mut remainder = byte as u32;
        let mut zeros = 0;
        while zeros < 24 {
            let mut bit = 0;
            while bit < 8 {
                remainder = (remainder >> 1) ^ (0x82f6_3b78 * (remainder & 1));
                bit += 1;
            }
            tables[zeros][byte] = remainder;
            zeros += 1;
        }
        byte += 1;
    }
    tables
}

/// The remainder of eight bytes with so many zero bytes after them.
#[inline(always)]
fn word_remainder(word: u64, zeros: usize) -> u32 {
    BYTE_REMAINDERS[zeros + 7][(word & 0xff) as usize]
        ^ BYTE_REMAINDERS[zeros + 6][(word >> 8 & 0xff) as usize]
        ^ BYTE_REMAINDERS[zeros + 5][(word >> 16 & 0xff) as usize]
        ^ BYTE_REMAINDERS[zeros + 4][(word >> 24 & 0xff) as usize]
        ^ BYTE_REMAINDERS[zeros + 3][(word >> 32 & 0xff) as usize]
        ^ BYTE_REMAINDERS[zeros + 2][(word >> 40 & 0xff) as usize]
        ^ BYTE_REMAINDERS[zeros + 1][(word >> 48 & 0xff) as usize]
        ^ BYTE_REMAINDERS[zeros][(word >> 56) as usize]
}

fn after_triples(remainder: u32, triples: &[[[u8; 8]; 3]]) -> u32 {
    let Some(([one, two, three], triples)) = triples.split_first() else {
        return remainder;
    };
    let mut first = u64::from(remainder) ^ u64::from_le_bytes(*one);
    let mut second = u64::from_le_bytes(*two);
    let mut third = u64::from_le_bytes(*three);
    for [one, two, three] in triples {
        first = u64::from(word_remainder(first, 16)) ^ u64::from_le_bytes(*one);
        second = u64::from(word_remainder(second, 16)) ^ u64::from_le_bytes(*two);
        third = u64::from(word_remainder(third, 16)) ^ u64::from_le_bytes(*three);
    }
    let remainder = word_remainder(first, 0);
    let remainder = word_remainder(u64::from(remainder) ^ second, 0);
    word_remainder(u64::from(remainder) ^ third, 0)
}

fn after_words(mut remainder: u32, words: &[[u8; 8]]) -> u32 {
    for word in words {
        remainder = word_remainder(u64::from(remainder) ^ u64::from_le_bytes(*word), 0);
    }
    remainder
}

fn after_bytes(mut remainder: u32, bytes: &[u8]) -> u32 {
    for byte in bytes {
        let place = (remainder ^ u32::from(*byte)) & 0xff;
        remainder = BYTE_REMAINDERS[0][place as usize] ^ (remainder >> 8);
    }
    remainder
}

#[inline(never)]
fn crc32c_by_triples(bytes: &[u8]) -> u32 {
    let (words, rest) = bytes.as_chunks();
    let (triples, words) = words.as_chunks();
    let remainder = after_triples(0xffff_ffff, triples);
    after_bytes(after_words(remainder, words), rest) ^ 0xffff_ffff
}

#[inline(never)]
fn crc32c(bytes: &[u8]) -> u32 {
    if bytes.len() >= 48 {
        return crc32c_by_triples(bytes);
    }
    let (words, rest) = bytes.as_chunks();
    after_bytes(after_words(0xffff_ffff, words), rest) ^ 0xffff_ffff
}

/// The four bytes at a place.
fn four(bytes: &[u8], at: usize) -> Option<[u8; 4]> {
    bytes.get(at..at + 4)?.try_into().ok()
}

/// A VARINT, taken off the front.
fn varint(bytes: &mut &[u8]) -> Option<i32> {
    let mut number = 0u32;
    for shift in [0, 7, 14, 21, 28] {
        let (byte, rest) = bytes.split_first()?;
        *bytes = rest;
        number |= u32::from(byte & 0x7f) << shift;
        if *byte < 0x80 {
            return Some((number >> 1) as i32 ^ -((number & 1) as i32));
        }
    }
    None
}

fn skip(bytes: &mut &[u8], len: i32) -> Option<()> {
    *bytes = bytes.get(usize::try_from(len).ok()?..)?;
    Some(())
}

/// A key or a value, which may be null.
fn skip_nullable(bytes: &mut &[u8]) -> Option<()> {
    match varint(bytes)? {
        -1 => Some(()),
        len => skip(bytes, len),
    }
}

fn skip_record(bytes: &mut &[u8], place: i32) -> Option<()> {
    let len = usize::try_from(varint(bytes)?).ok()?;
    let (mut part, rest) = bytes.split_at_checked(len)?;
    skip(&mut part, 1)?;
    varint(&mut part)?;
    if varint(&mut part)? != place {
        return None;
    }
    skip_nullable(&mut part)?;
    skip_nullable(&mut part)?;
    for _ in 0..varint(&mut part)? {
        let len = varint(&mut part)?;
        skip(&mut part, len)?;
        skip_nullable(&mut part)?;
    }
    *bytes = rest;
    part.is_empty().then_some(())
}

/// The checksum of a batch that is valid.
#[inline(never)]
fn check(bytes: Arc<[u8]>, max: u32) -> Option<u32> {
    let length = i32::from_be_bytes(four(&bytes, 8)?);
    let crc = u32::from_be_bytes(four(&bytes, 17)?);
    let attributes = u16::from_be_bytes([bytes[21], bytes[22]]);
    let last_offset_delta = i32::from_be_bytes(four(&bytes, 23)?);
    let count = i32::from_be_bytes(four(&bytes, 57)?);
    if length < 49 || length as usize + 12 != bytes.len() || bytes.get(16)? != &2 {
        return None;
    }
    if crc32c(&bytes[21..]) != crc || attributes != 0 || bytes.len() > max as usize {
        return None;
    }
    if count < 1 || count - 1 != last_offset_delta {
        return None;
    }
    let mut records = &bytes[61..];
    for place in 0..count {
        skip_record(&mut records, place)?;
    }
    records.is_empty().then_some(crc)
}

/// A batch of 16 records of 1,020 bytes each.
fn batch(base_offset: u32) -> Arc<[u8]> {
    let mut body = vec![0, 0, 0, 0, 0, 15];
    body.extend([0; 16]);
    body.extend([0xff; 14]);
    body.extend([0, 0, 0, 16]);
    for place in 0..16 {
        body.extend([0xf4, 0x0f, 0, 0, 2 * place, 1, 0xe6, 0x0f]);
        body.extend((0..1_011).map(|at| ((base_offset % 251 + at) % 251) as u8));
        body.push(0);
    }
    let mut out = i64::from(base_offset).to_be_bytes().to_vec();
    out.extend(16_369i32.to_be_bytes());
    out.extend([0, 0, 0, 0, 2]);
    out.extend(crc32c(&body).to_be_bytes());
    out.extend(body);
    out.into()
}

/// The checksums of the pieces of some bytes, as one number.
fn sum_of(bytes: &[u8], piece: usize) -> u32 {
    bytes
        .chunks_exact(piece)
        .fold(0, |sum: u32, part| sum.rotate_left(1) ^ crc32c(part))
}

/// Prints how many nanoseconds the best pass takes over so many bytes in pieces of this size.
fn measure(piece: usize, len: usize) {
    let bytes: Vec<u8> = (0..len).map(|at| (at % 251) as u8).collect();
    let passes = (0..PASSES).map(|_| {
        let start = Instant::now();
        let sum = sum_of(&bytes, piece);
        (start.elapsed().as_nanos(), sum)
    });
    let (best, sum) = passes.min().unwrap();
    println!("piece {piece} {len} {best} {sum}");
}

fn main() {
    let batches: Vec<Arc<[u8]>> = (0..BATCHES).map(batch).collect();
    for _ in 0..ROUNDS {
        let start = Instant::now();
        let mut sum = 0;
        for bytes in &batches {
            sum ^= crc32c(bytes);
        }
        println!("crc32c {} {sum}", start.elapsed().as_micros());

        let start = Instant::now();
        let mut sum = 0;
        for bytes in &batches {
            if let Some(crc) = check(bytes.clone(), 1_048_576) {
                sum ^= crc;
            }
        }
        println!("check {} {sum}", start.elapsed().as_micros());
    }
    for (piece, len) in [
        (8, 80_000),
        (16, 80_000),
        (40, 80_000),
        (100, 80_000),
        (200, 80_000),
        (1_024, 81_920),
        (16_384, 81_920),
        (1_000_000, 1_000_000),
    ] {
        measure(piece, len);
    }
}
