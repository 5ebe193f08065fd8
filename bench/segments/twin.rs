// The same work in plain Rust, std alone: a segment's stable part as bytes of packs, column by column,
// and its delta in a hundred blocks with their index. Merged: the packs are read, merged with the delta,
// collected at 15 and written anew. Scanned: the packs are read, merged, and the newest put of each row
// at 20 is shown. twin N. Best of three.
use std::sync::Arc;
use std::time::Instant;

include!("../column_codec/lists.rs");

#[derive(Clone)]
enum Cell {
    Int(i64),
    Bytes(Arc<[u8]>),
    Null,
}

struct Version {
    handle: i64,
    ts: u64,
    gone: bool,
    cells: Vec<Cell>,
}

const PACK_ROWS: usize = 1024;

fn put_version(handle: i64, ts: u64) -> Arc<Version> {
    let cells = vec![Cell::Int(handle), Cell::Bytes(handle.to_be_bytes()[..].into())];
    Arc::new(Version { handle, ts, gone: false, cells })
}

fn put_list(list: &List, into: &mut Vec<u8>) {
    let mut bytes = Vec::new();
    encode(list, &mut bytes);
    into.extend_from_slice(&(bytes.len() as u64).to_be_bytes());
    into.extend_from_slice(&bytes);
}

fn write_pack(versions: &[Arc<Version>], into: &mut Vec<u8>) {
    put_list(&List::Int(versions.iter().map(|v| Some(v.handle)).collect()), into);
    put_list(&List::Uint(versions.iter().map(|v| Some(v.ts)).collect()), into);
    put_list(&List::Uint(versions.iter().map(|v| Some(v.gone as u64)).collect()), into);
    let number = |v: &Arc<Version>| match v.cells.first() {
        Some(Cell::Int(n)) => Some(*n),
        _ => None,
    };
    put_list(&List::Int(versions.iter().map(number).collect()), into);
    let mut texts = Texts::default();
    for v in versions {
        texts.push(match v.cells.get(1) {
            Some(Cell::Bytes(b)) => Some(b),
            _ => None,
        });
    }
    put_list(&List::Bytes(texts), into);
}

// The packs' bytes, and the place and count of each.
struct File {
    bytes: Vec<u8>,
    packs: Vec<(usize, usize)>,
}

fn write_file(versions: &[Arc<Version>]) -> File {
    let mut file = File { bytes: Vec::new(), packs: Vec::new() };
    for pack in versions.chunks(PACK_ROWS) {
        file.packs.push((file.bytes.len(), pack.len()));
        write_pack(pack, &mut file.bytes);
    }
    file
}

fn list_at(bytes: &mut &[u8], kind: u8, count: usize) -> Option<List> {
    let (len, rest) = bytes.split_at_checked(8)?;
    let len = u64::from_be_bytes(len.try_into().unwrap()) as usize;
    let (list, rest) = rest.split_at_checked(len)?;
    *bytes = rest;
    decode(list, kind, count)
}

fn read_pack(mut bytes: &[u8], count: usize, into: &mut Vec<Arc<Version>>) -> Option<()> {
    let List::Int(handles) = list_at(&mut bytes, 0, count)? else { return None };
    let List::Uint(stamps) = list_at(&mut bytes, 1, count)? else { return None };
    let List::Uint(marks) = list_at(&mut bytes, 1, count)? else { return None };
    let List::Int(numbers) = list_at(&mut bytes, 0, count)? else { return None };
    let List::Bytes(texts) = list_at(&mut bytes, 2, count)? else { return None };
    for i in 0..count {
        let gone = marks[i]? == 1;
        let cells = if gone {
            Vec::new()
        } else {
            let mut cells = Vec::with_capacity(2);
            cells.push(numbers[i].map_or(Cell::Null, Cell::Int));
            cells.push(texts.at(i).map_or(Cell::Null, |b| Cell::Bytes(b.into())));
            cells
        };
        into.push(Arc::new(Version { handle: handles[i]?, ts: stamps[i]?, gone, cells }));
    }
    Some(())
}

fn read_file(file: &File) -> Vec<Arc<Version>> {
    let mut versions = Vec::new();
    for (place, count) in &file.packs {
        read_pack(&file.bytes[*place..], *count, &mut versions).expect("a pack");
    }
    versions
}

struct Delta {
    blocks: Vec<Vec<Arc<Version>>>,
    // handle, timestamp, block and place, in order; of a pair the later block's
    index: Vec<(i64, u64, u32, u32)>,
}

fn present(file: &File, delta: &Delta) -> Vec<Arc<Version>> {
    let stable = read_file(file);
    let mut merged = Vec::with_capacity(stable.len() + delta.index.len());
    let mut rows = delta.index.iter().peekable();
    for version in stable {
        let key = (version.handle, version.ts);
        while let Some(row) = rows.peek() {
            if (row.0, row.1) >= key {
                break;
            }
            merged.push(delta.blocks[row.2 as usize][row.3 as usize].clone());
            rows.next();
        }
        if let Some(row) = rows.peek() {
            if (row.0, row.1) == key {
                continue;
            }
        }
        merged.push(version);
    }
    for row in rows {
        merged.push(delta.blocks[row.2 as usize][row.3 as usize].clone());
    }
    merged
}

// Of each row the versions above the safe point, and the newest at or below it, but for a lone delete.
fn keep(versions: &[Arc<Version>], safe: u64) -> Vec<Arc<Version>> {
    let mut kept: Vec<Arc<Version>> = Vec::with_capacity(versions.len());
    for (i, v) in versions.iter().enumerate() {
        let next = versions.get(i + 1).filter(|n| n.handle == v.handle);
        let stays = v.ts > safe || next.map_or(!v.gone, |n| n.ts > safe);
        if stays {
            kept.push(v.clone());
        }
    }
    kept
}

fn shown(versions: &[Arc<Version>], ts: u64) -> Vec<Arc<Version>> {
    let mut rows: Vec<Arc<Version>> = Vec::new();
    for (i, v) in versions.iter().enumerate() {
        let next = versions.get(i + 1).filter(|n| n.handle == v.handle && n.ts <= ts);
        if v.ts <= ts && next.is_none() && !v.gone {
            rows.push(v.clone());
        }
    }
    rows
}

fn main() {
    let mut words = std::env::args().skip(1);
    let count: i64 = words.next().and_then(|n| n.parse().ok()).unwrap_or(1_000_000);
    let file = write_file(&(0..count / 10 * 9).map(|i| put_version(10 * i, 10)).collect::<Vec<_>>());
    let mut delta = Delta { blocks: Vec::new(), index: Vec::new() };
    for block in 0..100i64 {
        let first = if block % 2 == 0 { 10 * block } else { block };
        let versions: Vec<_> = (0..count / 1000).map(|i| put_version(first + 9000 * i, 20)).collect();
        for (row, v) in versions.iter().enumerate() {
            delta.index.push((v.handle, v.ts, block as u32, row as u32));
        }
        delta.blocks.push(versions);
    }
    delta.index.sort();
    if words.next().is_some() {
        println!("the input of {count} versions");
        return;
    }
    let (mut best, mut seen) = ((u128::MAX, u128::MAX), (0, 0));
    for _ in 0..3 {
        let start = Instant::now();
        let merged = write_file(&keep(&present(&file, &delta), 15));
        let bytes = merged.bytes.len();
        drop(merged);
        let middle = Instant::now();
        let rows = shown(&present(&file, &delta), 20).len();
        let end = Instant::now();
        best = (best.0.min((middle - start).as_micros()), best.1.min((end - middle).as_micros()));
        seen = (bytes, rows);
    }
    println!("merged into {} bytes: {} us; scanned {} rows: {} us", seen.0, best.0, seen.1, best.1);
}
