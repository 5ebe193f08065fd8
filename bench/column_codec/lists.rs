// Lists of optional values in bytes, as docs/FORMATS.md has them, in plain Rust: texts stand in one buffer.
pub enum List {
    Int(Vec<Option<i64>>),
    Uint(Vec<Option<u64>>),
    Bytes(Texts),
}

#[derive(Default)]
pub struct Texts {
    bytes: Vec<u8>,
    ends: Vec<Option<(usize, usize)>>,
}

impl Texts {
    fn push(&mut self, value: Option<&[u8]>) {
        let start = self.bytes.len();
        if let Some(v) = value {
            self.bytes.extend_from_slice(v);
        }
        let end = self.bytes.len();
        self.ends.push(value.map(|_| (start, end)));
    }
    fn at(&self, i: usize) -> Option<&[u8]> {
        self.ends[i].map(|(a, b)| &self.bytes[a..b])
    }
}

fn put(mut n: u64, into: &mut Vec<u8>) {
    while n >= 128 {
        into.push(128 | (n % 128) as u8);
        n /= 128;
    }
    into.push(n as u8);
}

fn folded(d: u64) -> u64 {
    (d << 1) ^ ((d as i64 >> 63) as u64)
}

fn unfolded(z: u64) -> u64 {
    (z >> 1) ^ (z & 1).wrapping_neg()
}

fn head(nulls: impl Iterator<Item = bool> + Clone, same: bool, into: &mut Vec<u8>) {
    into.push(same as u8);
    let any = nulls.clone().any(|n| n);
    into.push(any as u8);
    if any {
        let (mut byte, mut k) = (0u8, 0);
        for null in nulls {
            byte |= (null as u8) << k;
            k += 1;
            if k == 8 {
                into.push(byte);
                (byte, k) = (0, 0);
            }
        }
        if k > 0 {
            into.push(byte);
        }
    }
}

fn all_same<T: PartialEq + Copy>(values: impl Iterator<Item = Option<T>>) -> bool {
    let mut first = None;
    let mut count = 0;
    for value in values.flatten() {
        match first {
            None => first = Some(value),
            Some(f) if f == value => {}
            Some(_) => return false,
        }
        count += 1;
    }
    count > 1
}

fn encode(list: &List, into: &mut Vec<u8>) {
    match list {
        List::Int(v) => {
            let same = all_same(v.iter().copied());
            head(v.iter().map(|x| x.is_none()), same, into);
            numbers(v.iter().flatten().map(|n| *n as u64), same, into);
        }
        List::Uint(v) => {
            let same = all_same(v.iter().copied());
            head(v.iter().map(|x| x.is_none()), same, into);
            numbers(v.iter().flatten().copied(), same, into);
        }
        List::Bytes(v) => {
            let count = v.ends.len();
            let same = all_same((0..count).map(|i| v.at(i)));
            head(v.ends.iter().map(|x| x.is_none()), same, into);
            let take = if same { 1 } else { usize::MAX };
            for value in (0..count).filter_map(|i| v.at(i)).take(take) {
                put(value.len() as u64, into);
                into.extend_from_slice(value);
            }
        }
    }
}

fn numbers(values: impl Iterator<Item = u64>, same: bool, into: &mut Vec<u8>) {
    let mut before = 0u64;
    for n in values {
        put(folded(n.wrapping_sub(before)), into);
        before = n;
        if same {
            return;
        }
    }
}

fn number(bytes: &mut &[u8]) -> Option<u64> {
    let mut n = 0u64;
    let mut shift = 0;
    loop {
        let (byte, rest) = bytes.split_first()?;
        *bytes = rest;
        if shift == 63 && *byte > 1 || shift > 0 && *byte == 0 {
            return None;
        }
        n |= ((byte & 127) as u64) << shift;
        if *byte < 128 {
            return Some(n);
        }
        shift += 7;
    }
}

fn is_null(bitmap: &[u8], i: usize) -> bool {
    !bitmap.is_empty() && bitmap[i / 8] >> (i % 8) & 1 == 1
}

fn decode_numbers<T>(mode: u8, bitmap: &[u8], bytes: &mut &[u8], count: usize, of: fn(u64) -> T) -> Option<Vec<Option<T>>> {
    let mut list = Vec::with_capacity(count);
    let mut before = 0u64;
    let mut first = true;
    for i in 0..count {
        if is_null(bitmap, i) {
            list.push(None);
        } else {
            if first || mode == 0 {
                before = before.wrapping_add(unfolded(number(bytes)?));
                first = false;
            }
            list.push(Some(of(before)));
        }
    }
    Some(list)
}

fn decode(mut bytes: &[u8], kind: u8, count: usize) -> Option<List> {
    let (mode, rest) = bytes.split_first()?;
    let (null, rest) = rest.split_first()?;
    if *mode > 1 || *null > 1 || *null == 1 && count == 0 {
        return None;
    }
    bytes = rest;
    let (bitmap, rest) = bytes.split_at_checked(if *null == 1 { (count + 7) / 8 } else { 0 })?;
    bytes = rest;
    let list = match kind {
        0 => List::Int(decode_numbers(*mode, bitmap, &mut bytes, count, |n| n as i64)?),
        1 => List::Uint(decode_numbers(*mode, bitmap, &mut bytes, count, |n| n)?),
        _ => {
            let mut list = Texts::default();
            let mut text: Option<&[u8]> = None;
            for i in 0..count {
                if is_null(bitmap, i) {
                    list.push(None);
                } else {
                    if text.is_none() || *mode == 0 {
                        let len = number(&mut bytes)? as usize;
                        let (value, rest) = bytes.split_at_checked(len)?;
                        bytes = rest;
                        text = Some(value);
                    }
                    list.push(text);
                }
            }
            List::Bytes(list)
        }
    };
    if !bytes.is_empty() {
        return None;
    }
    // the other mode may have been due
    let same = match &list {
        List::Int(v) => all_same(v.iter().copied()),
        List::Uint(v) => all_same(v.iter().copied()),
        List::Bytes(v) => all_same((0..count).map(|i| v.at(i))),
    };
    if same as u8 != *mode {
        return None;
    }
    Some(list)
}
