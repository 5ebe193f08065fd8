// The same work in plain Rust: a frame's ops are copied once, and keys and values share that copy.
use std::sync::Arc;
use std::time::Instant;

const FRAME: [u8; 110] = [
    0, 0, 0, 106, 0, 0, 0, 1, 0, 0, 0, 0, 0, 0, 0, 6, 2, 0, 0, 0, 1, 1, 3, 0, 35, 116, 128, 0, 0, 0, 0,
    0, 0, 255, 1, 95, 114, 128, 0, 0, 0, 0, 255, 0, 0, 5, 0, 0, 0, 0, 0, 250, 255, 255, 255, 255, 255,
    255, 255, 245, 0, 0, 0, 46, 80, 7, 118, 42, 128, 0, 2, 0, 0, 0, 1, 2, 1, 0, 30, 0, 5, 1, 2, 3, 4, 5,
    6, 7, 8, 9, 10, 11, 12, 13, 14, 15, 16, 17, 18, 19, 20, 21, 22, 23, 24, 25, 26, 27, 28, 29,
];

pub struct Part {
    buffer: Arc<[u8]>,
    start: usize,
    end: usize,
}

impl Part {
    fn len(&self) -> usize {
        self.end - self.start
    }
    pub fn bytes(&self) -> &[u8] {
        &self.buffer[self.start..self.end]
    }
}

pub struct Op {
    pub put: bool,
    pub family: u8,
    pub key: Part,
    pub value: Part,
}

pub struct Entry {
    pub region: u32,
    pub index: u64,
    pub ops: Vec<Op>,
}

pub enum Fault {
    Short(u64),
    Bad(u64),
    Long(u64),
}

struct Cursor<'a> {
    bytes: &'a [u8],
    at: usize,
    place: usize,
}

impl<'a> Cursor<'a> {
    fn bad(&self) -> Fault {
        Fault::Bad((self.place + self.at) as u64)
    }
    fn take<const N: usize>(&mut self) -> Result<[u8; N], Fault> {
        match self.bytes[self.at..].first_chunk::<N>() {
            Some(field) => {
                self.at += N;
                Ok(*field)
            }
            None => Err(self.bad()),
        }
    }
    fn part(&mut self, len: usize, buffer: &Arc<[u8]>) -> Result<Part, Fault> {
        if self.bytes.len() - self.at < len {
            return Err(self.bad());
        }
        let start = self.at;
        self.at += len;
        Ok(Part { buffer: buffer.clone(), start, end: self.at })
    }
}

fn read_op(cursor: &mut Cursor, buffer: &Arc<[u8]>) -> Result<Op, Fault> {
    let bad = cursor.bad();
    let [kind] = cursor.take::<1>()?;
    if kind < 1 || kind > 2 {
        return Err(bad);
    }
    let bad = cursor.bad();
    let [family] = cursor.take::<1>()?;
    if family < 1 || family > 3 {
        return Err(bad);
    }
    let len = u16::from_be_bytes(cursor.take::<2>()?) as usize;
    let key = cursor.part(len, buffer)?;
    let value = if kind == 1 {
        let len = u32::from_be_bytes(cursor.take::<4>()?) as usize;
        cursor.part(len, buffer)?
    } else {
        Part { buffer: buffer.clone(), start: 0, end: 0 }
    };
    Ok(Op { put: kind == 1, family, key, value })
}

pub fn read_frame(log: &[u8], at: usize) -> Result<(Entry, usize), Fault> {
    let short = Fault::Short(log.len() as u64);
    let Some(field) = log[at..].first_chunk::<4>() else { return Err(short) };
    let len = u32::from_be_bytes(*field) as usize;
    if len > 16_777_216 {
        return Err(Fault::Bad(at as u64));
    }
    let Some(payload) = log.get(at + 4..at + 4 + len) else { return Err(short) };
    let mut head = Cursor { bytes: payload, at: 0, place: at + 4 };
    let region = u32::from_be_bytes(head.take::<4>()?);
    let bad = head.bad();
    let index = u64::from_be_bytes(head.take::<8>()?);
    if index < 1 || index > i64::MAX as u64 {
        return Err(bad);
    }
    let bad = head.bad();
    let [kind] = head.take::<1>()?;
    if kind != 2 {
        return Err(bad);
    }
    let count = u32::from_be_bytes(head.take::<4>()?);
    let buffer: Arc<[u8]> = Arc::from(&payload[head.at..]);
    let mut cursor = Cursor { bytes: &buffer, at: 0, place: at + 4 + head.at };
    let mut ops = Vec::new();
    for _ in 0..count {
        ops.push(read_op(&mut cursor, &buffer)?);
    }
    if cursor.at < cursor.bytes.len() {
        return Err(Fault::Long((cursor.place + cursor.at) as u64));
    }
    Ok((Entry { region, index, ops }, at + 4 + len))
}

fn read_all(log: &[u8]) -> u64 {
    let mut at = 0;
    let mut size = 0u64;
    while at < log.len() {
        let Ok((entry, end)) = read_frame(log, at) else { return 0 };
        for op in &entry.ops {
            size += op.key.len() as u64 + op.value.len() as u64;
        }
        at = end;
    }
    size
}

fn main() {
    let frames: u32 = std::env::args().nth(1).and_then(|n| n.parse().ok()).unwrap_or(200_000);
    let mut log = Vec::new();
    for _ in 0..frames {
        log.extend_from_slice(&FRAME);
    }
    let start = Instant::now();
    let mut size = 0u64;
    for _ in 0..10 {
        size = size.wrapping_add(read_all(std::hint::black_box(&log)));
    }
    println!("{frames} frames ten times: {} us, {size} bytes", start.elapsed().as_micros());
}
