// The same work in plain Rust: lists of optional values, and texts in one buffer.
use std::time::Instant;

include!("lists.rs");

fn length_of(list: &List) -> u64 {
    match list {
        List::Int(v) => v.len() as u64,
        List::Uint(v) => v.len() as u64,
        List::Bytes(v) => v.ends.len() as u64,
    }
}

fn measure(name: &str, list: &List, kind: u8, count: u64) {
    let mut bytes = Vec::new();
    let start = Instant::now();
    for _ in 0..3 {
        bytes.clear();
        encode(std::hint::black_box(list), &mut bytes);
    }
    let written = Instant::now();
    let mut seen = 0u64;
    for _ in 0..3 {
        if let Some(again) = decode(std::hint::black_box(&bytes), kind, count as usize) {
            seen += length_of(&again);
        }
    }
    let read = Instant::now();
    println!(
        "{name}: written in {} us, read in {} us, {} bytes, {seen} seen",
        (written - start).as_micros(),
        (read - written).as_micros(),
        bytes.len()
    );
}

fn main() {
    let count: u64 = std::env::args().nth(1).and_then(|n| n.parse().ok()).unwrap_or(1_000_000);
    let handles = List::Int((0..count).map(|i| Some(i.wrapping_mul(3) as i64)).collect());
    measure("handles", &handles, 0, count);
    let equal = List::Uint((0..count).map(|_| Some(450_000_000_000_000_000)).collect());
    measure("equal timestamps", &equal, 1, count);
    let jumping = (0..count).map(|i| if i % 16 == 0 { None } else { Some(i.wrapping_mul(0x9E37_79B9_7F4A_7C15)) });
    measure("jumping timestamps", &List::Uint(jumping.collect()), 1, count);
    let mut texts = Texts::default();
    for i in 0..count {
        texts.push(Some(&i.to_be_bytes()));
    }
    measure("texts", &List::Bytes(texts), 2, count);
}
