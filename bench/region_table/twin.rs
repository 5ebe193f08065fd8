// The same work in plain Rust, std alone: twin LOG [VERSIONS]. The log's entries are read into memory
// first; then they are applied to regions with their default values and locks, keys and records read on
// the way. With a second word the versions that an entry commits are made too: a value that a commit
// takes is read as its row's numbers and bytes. Best of five.
use std::collections::BTreeMap;
use std::sync::Arc;
use std::time::Instant;

type Bytes = Arc<[u8]>;

struct Op {
    put: bool,
    family: u8,
    key: Bytes,
    value: Bytes,
}

enum Body {
    Open { low: i64, high: Option<i64>, conf: u64, version: u64 },
    Write(Vec<Op>),
    Split { at: i64, child: u32 },
    Prepare(u32),
    Commit(u32),
    Remove,
    Empty,
}

struct Entry {
    region: u32,
    index: u64,
    body: Body,
}

struct Region {
    low: i64,
    high: Option<i64>,
    conf: u64,
    version: u64,
    index: u64,
    target: Option<u32>,
    values: BTreeMap<(i64, u64), Bytes>,
    locks: BTreeMap<i64, (u8, u64)>,
}

enum Kept {
    Gone(u64),
    There(Region),
}

#[allow(dead_code)]
enum Cell {
    Null,
    Int(i64),
    Uint(u64),
    Bytes(Bytes),
}

#[allow(dead_code)]
struct Version {
    handle: i64,
    ts: u64,
    gone: bool,
    cells: Vec<Cell>,
}

struct Cut<'a>(&'a [u8]);

impl<'a> Cut<'a> {
    fn take(&mut self, n: usize) -> &'a [u8] {
        let (a, b) = self.0.split_at(n);
        self.0 = b;
        a
    }
    fn u8(&mut self) -> u8 {
        self.take(1)[0]
    }
    fn u16(&mut self) -> u16 {
        u16::from_be_bytes(self.take(2).try_into().unwrap())
    }
    fn u32(&mut self) -> u32 {
        u32::from_be_bytes(self.take(4).try_into().unwrap())
    }
    fn u64(&mut self) -> u64 {
        u64::from_be_bytes(self.take(8).try_into().unwrap())
    }
    fn range(&mut self) -> (i64, Option<i64>) {
        let low = self.u64() as i64;
        let high = if self.u8() == 1 { Some(self.u64() as i64) } else { None };
        (low, high)
    }
}

fn entry_of(payload: &[u8]) -> Entry {
    let mut c = Cut(payload);
    let (region, index, kind) = (c.u32(), c.u64(), c.u8());
    let body = match kind {
        1 => {
            let (conf, version) = (c.u64(), c.u64());
            let (low, high) = c.range();
            Body::Open { low, high, conf, version }
        }
        2 => {
            let count = c.u32();
            let mut ops = Vec::with_capacity(count as usize);
            for _ in 0..count {
                let (put, family) = (c.u8() == 1, c.u8());
                let len = c.u16() as usize;
                let key = c.take(len).into();
                let value = if put {
                    let len = c.u32() as usize;
                    c.take(len).into()
                } else {
                    [].into()
                };
                ops.push(Op { put, family, key, value });
            }
            Body::Write(ops)
        }
        3 => Body::Split { at: c.u64() as i64, child: c.u32() },
        4 => Body::Prepare(c.u32()),
        5 => Body::Commit(c.u32()),
        6 => Body::Remove,
        _ => Body::Empty,
    };
    Entry { region, index, body }
}

fn leb(b: &[u8], at: &mut usize) -> u64 {
    let mut x = 0u64;
    for k in 0..10 {
        let c = b[*at];
        *at += 1;
        x |= ((c & 127) as u64) << (7 * k);
        if c < 128 {
            break;
        }
    }
    x
}

// The handle of a record key, where it is one of the table, with what follows the encoded key.
fn handle_of(key: &[u8], table: i64) -> Option<(i64, &[u8])> {
    let mut plain = [0u8; 24];
    let mut rest = key;
    let mut n = 0;
    loop {
        if rest.len() < 9 || n > 16 {
            return None;
        }
        let marker = rest[8];
        let k = 8usize.checked_sub((0xFF - marker) as usize)?;
        if rest[k..8].iter().any(|&b| b != 0) {
            return None;
        }
        plain[n..n + k].copy_from_slice(&rest[..k]);
        n += k;
        rest = &rest[9..];
        if k < 8 {
            break;
        }
    }
    if n != 19 || plain[0] != b't' || &plain[9..11] != b"_r" {
        return None;
    }
    let of = |s: &[u8]| (u64::from_be_bytes(s.try_into().unwrap()) ^ (1 << 63)) as i64;
    (of(&plain[1..9]) == table).then(|| (of(&plain[11..19]), rest))
}

fn ts_of(rest: &[u8]) -> u64 {
    !u64::from_be_bytes(rest.try_into().unwrap())
}

fn int(b: &[u8]) -> i64 {
    match b.len() {
        1 => b[0] as i8 as i64,
        2 => i16::from_le_bytes(b.try_into().unwrap()) as i64,
        4 => i32::from_le_bytes(b.try_into().unwrap()) as i64,
        _ => i64::from_le_bytes(b.try_into().unwrap()),
    }
}

fn uint(b: &[u8]) -> u64 {
    match b.len() {
        1 => b[0] as u64,
        2 => u16::from_le_bytes(b.try_into().unwrap()) as u64,
        4 => u32::from_le_bytes(b.try_into().unwrap()) as u64,
        _ => u64::from_le_bytes(b.try_into().unwrap()),
    }
}

// The cells of a row in the small form.
fn cells_of(row: &[u8], schema: &[(u32, u8)]) -> Vec<Cell> {
    let n = u16::from_le_bytes([row[2], row[3]]) as usize;
    let m = u16::from_le_bytes([row[4], row[5]]) as usize;
    let ids = &row[6..6 + n];
    let offs = &row[6 + n + m..];
    let vals = &offs[2 * n..];
    let off = |k: usize| u16::from_le_bytes([offs[2 * k], offs[2 * k + 1]]) as usize;
    let mut cells = Vec::with_capacity(schema.len());
    for (id, kind) in schema {
        cells.push(match ids.binary_search(&(*id as u8)) {
            Err(_) => Cell::Null,
            Ok(k) => {
                let b = &vals[if k == 0 { 0 } else { off(k - 1) }..off(k)];
                match kind {
                    1 => Cell::Int(int(b)),
                    2 => Cell::Uint(uint(b)),
                    _ => Cell::Bytes(b.into()),
                }
            }
        });
    }
    cells
}

struct Table {
    id: i64,
    tells: bool,
    read: u64,
    schema: Vec<(u32, u8)>,
    regions: BTreeMap<u32, Kept>,
}

impl Table {
    fn there(&mut self, id: u32) -> &mut Region {
        match self.regions.get_mut(&id) {
            Some(Kept::There(region)) => region,
            _ => panic!("no region"),
        }
    }

    fn write(&mut self, id: u32, ops: &[Op]) -> Vec<Version> {
        let (table, tells, mut read) = (self.id, self.tells, self.read);
        let schema = std::mem::take(&mut self.schema);
        let region = self.there(id);
        let mut versions = Vec::new();
        for op in ops {
            let Some((handle, rest)) = handle_of(&op.key, table) else { continue };
            match (op.family, op.put) {
                (1, true) => {
                    region.values.insert((handle, ts_of(rest)), op.value.clone());
                }
                (1, false) => {
                    region.values.remove(&(handle, ts_of(rest)));
                }
                (2, true) => {
                    let mut at = 1;
                    let len = (leb(&op.value, &mut at) >> 1) as usize;
                    at += len;
                    let start = leb(&op.value, &mut at);
                    region.locks.insert(handle, (op.value[0], start));
                }
                (2, false) => {
                    region.locks.remove(&handle);
                }
                (_, true) => {
                    let mut at = 1;
                    let start = leb(&op.value, &mut at);
                    let ts = ts_of(rest);
                    let short = (op.value.get(at) == Some(&b'v')).then(|| {
                        let len = op.value[at + 1] as usize;
                        &op.value[at + 2..at + 2 + len]
                    });
                    read ^= start ^ ts ^ short.map_or(0, |bytes| bytes.len() as u64);
                    match op.value[0] {
                        _ if !tells => {}
                        b'P' => {
                            let cells = match short {
                                Some(bytes) => cells_of(bytes, &schema),
                                None => cells_of(&region.values[&(handle, start)], &schema),
                            };
                            versions.push(Version { handle, ts, gone: false, cells });
                        }
                        b'D' => versions.push(Version { handle, ts, gone: true, cells: Vec::new() }),
                        _ => {}
                    }
                }
                _ => {}
            }
        }
        self.schema = schema;
        self.read = read;
        versions
    }

    fn apply(&mut self, e: &Entry) -> Vec<Version> {
        match &e.body {
            Body::Open { low, high, conf, version } => {
                let region = Region {
                    low: *low,
                    high: *high,
                    conf: *conf,
                    version: *version,
                    index: e.index,
                    target: None,
                    values: BTreeMap::new(),
                    locks: BTreeMap::new(),
                };
                self.regions.insert(e.region, Kept::There(region));
                return Vec::new();
            }
            Body::Write(ops) => {
                let versions = self.write(e.region, ops);
                self.there(e.region).index = e.index;
                return versions;
            }
            Body::Split { at, child } => {
                let region = self.there(e.region);
                let values = region.values.split_off(&(*at, 0));
                let locks = region.locks.split_off(at);
                region.version += 1;
                region.index = e.index;
                let upper = Region {
                    low: *at,
                    high: region.high,
                    conf: region.conf,
                    version: region.version,
                    index: 5,
                    target: None,
                    values,
                    locks,
                };
                region.high = Some(*at);
                self.regions.insert(*child, Kept::There(upper));
            }
            Body::Prepare(target) => {
                let region = self.there(e.region);
                region.conf += 1;
                region.version += 1;
                region.index = e.index;
                region.target = Some(*target);
            }
            Body::Commit(source) => {
                let Some(Kept::There(mut other)) = self.regions.remove(source) else { panic!() };
                self.regions.insert(*source, Kept::Gone(other.index));
                let region = self.there(e.region);
                region.values.append(&mut other.values);
                region.locks.append(&mut other.locks);
                region.version = region.version.max(other.version) + 1;
                region.index = e.index;
                if other.low < region.low {
                    region.low = other.low;
                } else {
                    region.high = other.high;
                }
            }
            Body::Remove => {
                self.regions.insert(e.region, Kept::Gone(e.index));
            }
            Body::Empty => self.there(e.region).index = e.index,
        }
        Vec::new()
    }
}

fn main() {
    let Some(path) = std::env::args().nth(1) else { return };
    let Ok(b) = std::fs::read(path) else { return };
    let id = i64::from_be_bytes(b[10..18].try_into().unwrap());
    let columns = u16::from_be_bytes([b[18], b[19]]) as usize;
    let mut c = Cut(&b[20..]);
    let schema: Vec<(u32, u8)> = (0..columns).map(|_| (c.u32(), c.u8())).collect();
    let mut entries = Vec::new();
    while !c.0.is_empty() {
        let len = c.u32() as usize;
        entries.push(entry_of(c.take(len)));
    }
    let tells = std::env::args().nth(2).is_some();
    let mut best = u128::MAX;
    let mut versions = 0;
    for _ in 0..5 {
        let start = Instant::now();
        let mut table = Table { id, tells, read: 0, schema: schema.clone(), regions: BTreeMap::new() };
        versions = 0;
        for e in &entries {
            versions += table.apply(e).len();
        }
        let gone = table.regions.values().filter(|r| matches!(r, Kept::Gone(i) if *i > 0)).count();
        std::hint::black_box(table.read);
        drop(table);
        best = best.min(start.elapsed().as_micros());
        assert!(gone < entries.len());
    }
    println!("{} entries applied, {versions} versions: {best} us", entries.len());
}
