// `show` over any lawful log as plain Rust would do it, std alone: twin LOG TS. It admits the whole log
// and keeps the commits of each handle; of refusals it tells the frame and the cause, roughly.
use std::collections::BTreeMap;
use std::io::Write;

#[derive(Clone, Copy, PartialEq)]
enum St {
    Live,
    Prepared(u32),
    Gone,
}
struct Region {
    st: St,
    index: u64,
    low: i64,
    high: Option<i64>,
    ver: u64,
    conf: u64,
}
#[derive(Clone)]
struct Commit {
    ts: u64,
    start: u64,
    gone: bool,
    value: Vec<u8>,
}

struct Bad(String);
type R<T> = Result<T, Bad>;
fn bad<T>(n: u64, s: String) -> R<T> {
    Err(Bad(format!("refused log frame {n} {s}")))
}

struct Cur<'a> {
    b: &'a [u8],
    at: usize,
    end: usize,
    frame: u64,
}
impl<'a> Cur<'a> {
    fn take(&mut self, n: usize) -> R<&'a [u8]> {
        if self.end - self.at < n {
            return bad(self.frame, format!("bad {}", self.at));
        }
        let s = &self.b[self.at..self.at + n];
        self.at += n;
        Ok(s)
    }
    fn u8(&mut self) -> R<u8> {
        Ok(self.take(1)?[0])
    }
    fn u16(&mut self) -> R<u16> {
        Ok(u16::from_be_bytes(self.take(2)?.try_into().unwrap()))
    }
    fn u32(&mut self) -> R<u32> {
        Ok(u32::from_be_bytes(self.take(4)?.try_into().unwrap()))
    }
    fn u64(&mut self) -> R<u64> {
        Ok(u64::from_be_bytes(self.take(8)?.try_into().unwrap()))
    }
}
fn leb(b: &[u8], at: &mut usize) -> Option<u64> {
    let mut x = 0u64;
    for k in 0..10 {
        let c = *b.get(*at)?;
        if k == 9 && c > 1 {
            return None;
        }
        *at += 1;
        x |= ((c & 127) as u64) << (7 * k);
        if c < 128 {
            return Some(x);
        }
    }
    None
}
fn key_handle(key: &[u8], table: i64) -> Option<Option<i64>> {
    let mut plain = [0u8; 24];
    let mut n = 0;
    let mut long = false;
    let mut at = 0;
    loop {
        if key.len() - at < 9 {
            return None;
        }
        let m = key[at + 8];
        if m < 0xF7 {
            return None;
        }
        let k = 8 - (0xFF - m) as usize;
        if key[at + k..at + 8].iter().any(|&c| c != 0) {
            return None;
        }
        if n + k <= 24 {
            plain[n..n + k].copy_from_slice(&key[at..at + k]);
        } else {
            long = true;
        }
        n += k;
        at += 9;
        if k < 8 {
            break;
        }
    }
    if at != key.len() {
        return None;
    }
    if long || n != 19 || plain[0] != b't' || &plain[9..11] != b"_r" {
        return Some(None);
    }
    let t = (u64::from_be_bytes(plain[1..9].try_into().unwrap()) ^ (1 << 63)) as i64;
    let h = (u64::from_be_bytes(plain[11..19].try_into().unwrap()) ^ (1 << 63)) as i64;
    Some((t == table).then_some(h))
}
struct Row<'a> {
    n: usize,
    m: usize,
    big: bool,
    ids: &'a [u8],
    offs: &'a [u8],
    vals: &'a [u8],
}
impl<'a> Row<'a> {
    fn read(b: &'a [u8]) -> Option<Row<'a>> {
        if b.len() < 6 || b[0] != 128 {
            return None;
        }
        let big = b[1] & 1 == 1;
        let w = if big { 4 } else { 1 };
        let ow = if big { 4 } else { 2 };
        let n = u16::from_le_bytes([b[2], b[3]]) as usize;
        let m = u16::from_le_bytes([b[4], b[5]]) as usize;
        let a = 6 + (n + m) * w;
        let v = a + n * ow;
        if b.len() < v {
            return None;
        }
        let r = Row {
            n,
            m,
            big,
            ids: &b[6..a],
            offs: &b[a..v],
            vals: &b[v..],
        };
        for k in 1..n {
            if r.id(k) <= r.id(k - 1) {
                return None;
            }
        }
        for k in n + 1..n + m {
            if r.id(k) <= r.id(k - 1) {
                return None;
            }
        }
        let mut last = 0;
        for k in 0..n {
            let o = r.off(k);
            if o < last || o > r.vals.len() {
                return None;
            }
            last = o;
        }
        Some(r)
    }
    fn id(&self, k: usize) -> u32 {
        if self.big {
            u32::from_le_bytes(self.ids[4 * k..4 * k + 4].try_into().unwrap())
        } else {
            self.ids[k] as u32
        }
    }
    fn off(&self, k: usize) -> usize {
        if self.big {
            u32::from_le_bytes(self.offs[4 * k..4 * k + 4].try_into().unwrap()) as usize
        } else {
            u16::from_le_bytes([self.offs[2 * k], self.offs[2 * k + 1]]) as usize
        }
    }
    fn val(&self, k: usize) -> &'a [u8] {
        &self.vals[if k == 0 { 0 } else { self.off(k - 1) }..self.off(k)]
    }
    fn find(&self, id: u32) -> Option<Option<&'a [u8]>> {
        let (mut lo, mut hi) = (0, self.n);
        while lo < hi {
            let mid = (lo + hi) / 2;
            if self.id(mid) < id {
                lo = mid + 1
            } else {
                hi = mid
            }
        }
        if lo < self.n && self.id(lo) == id {
            return Some(Some(self.val(lo)));
        }
        (self.n..self.n + self.m)
            .any(|k| self.id(k) == id)
            .then_some(None)
    }
}
fn int(b: &[u8]) -> Option<i64> {
    Some(match b.len() {
        1 => b[0] as i8 as i64,
        2 => i16::from_le_bytes(b.try_into().unwrap()) as i64,
        4 => i32::from_le_bytes(b.try_into().unwrap()) as i64,
        8 => i64::from_le_bytes(b.try_into().unwrap()),
        _ => return None,
    })
}
fn uint(b: &[u8]) -> Option<u64> {
    Some(match b.len() {
        1 => b[0] as u64,
        2 => u16::from_le_bytes(b.try_into().unwrap()) as u64,
        4 => u32::from_le_bytes(b.try_into().unwrap()) as u64,
        8 => u64::from_le_bytes(b.try_into().unwrap()),
        _ => return None,
    })
}

fn run(n: u64, b: &[u8]) -> R<Vec<u8>> {
    let short = |f: u64| bad(f, format!("short {}", b.len()));
    if b.len() < 20 {
        return short(0);
    }
    if &b[..8] != b"FLASHLOG" {
        return bad(0, "bad 0".into());
    }
    let table = i64::from_be_bytes(b[10..18].try_into().unwrap());
    let cols = u16::from_be_bytes(b[18..20].try_into().unwrap()) as usize;
    if cols > 64 {
        return bad(0, "bad 18".into());
    }
    if b.len() < 20 + 5 * cols {
        return short(0);
    }
    let schema: Vec<(u32, u8)> = (0..cols)
        .map(|k| {
            let a = 20 + 5 * k;
            (
                u32::from_be_bytes(b[a..a + 4].try_into().unwrap()),
                b[a + 4],
            )
        })
        .collect();
    let mut at = 20 + 5 * cols;
    let mut regions: BTreeMap<u32, Region> = BTreeMap::new();
    let mut byrange: BTreeMap<i64, u32> = BTreeMap::new();
    let mut defaults: BTreeMap<(i64, u64), Vec<u8>> = BTreeMap::new();
    let mut commits: BTreeMap<i64, Vec<Commit>> = BTreeMap::new();
    let mut f = 0;
    while at < b.len() {
        f += 1;
        if b.len() - at < 4 {
            return short(f);
        }
        let len = u32::from_be_bytes(b[at..at + 4].try_into().unwrap()) as usize;
        if len > 16_777_216 {
            return bad(f, format!("bad {at}"));
        }
        if b.len() - at - 4 < len {
            return short(f);
        }
        let mut c = Cur {
            b,
            at: at + 4,
            end: at + 4 + len,
            frame: f,
        };
        at = c.end;
        let id = c.u32()?;
        let index = c.u64()?;
        let kind = c.u8()?;
        let step = |regions: &mut BTreeMap<u32, Region>| -> R<()> {
            match regions.get_mut(&id) {
                Some(r) if r.st == St::Live => {
                    if index != r.index + 1 {
                        return bad(f, format!("index {}", r.index + 1));
                    }
                    r.index = index;
                    Ok(())
                }
                _ => bad(f, format!("region {id} dead")),
            }
        };
        let mut clear = |low: i64, high: Option<i64>, commits: &mut BTreeMap<i64, Vec<Commit>>| {
            let inside = |h: i64| h >= low && high.map_or(true, |x| h < x);
            let hs: Vec<i64> = commits
                .range(low..)
                .map(|x| *x.0)
                .take_while(|h| inside(*h))
                .collect();
            for h in hs {
                commits.remove(&h);
            }
            let ks: Vec<(i64, u64)> = defaults
                .range((low, 0)..)
                .map(|x| *x.0)
                .take_while(|k| inside(k.0))
                .collect();
            for k in ks {
                defaults.remove(&k);
            }
        };
        match kind {
            1 | 7 => {
                let conf = c.u64()?;
                let ver = c.u64()?;
                let low = c.u64()? as i64;
                let high = if c.u8()? == 1 {
                    Some(c.u64()? as i64)
                } else {
                    None
                };
                if regions.contains_key(&id) {
                    return bad(f, format!("region {id} born"));
                }
                if kind == 7 {
                    clear(low, high, &mut commits);
                }
                regions.insert(
                    id,
                    Region {
                        st: St::Live,
                        index,
                        low,
                        high,
                        ver,
                        conf,
                    },
                );
                byrange.insert(low, id);
            }
            3 => {
                let s = c.u64()? as i64;
                let child = c.u32()?;
                step(&mut regions)?;
                let r = regions.get_mut(&id).unwrap();
                r.ver += 1;
                let (high, ver, conf) = (r.high, r.ver, r.conf);
                r.high = Some(s);
                regions.insert(
                    child,
                    Region {
                        st: St::Live,
                        index: 5,
                        low: s,
                        high,
                        ver,
                        conf,
                    },
                );
                byrange.insert(s, child);
            }
            4 => {
                let t = c.u32()?;
                step(&mut regions)?;
                let r = regions.get_mut(&id).unwrap();
                r.st = St::Prepared(t);
                r.ver += 1;
                r.conf += 1;
            }
            5 => {
                let s = c.u32()?;
                step(&mut regions)?;
                let src = regions.get_mut(&s).unwrap();
                src.st = St::Gone;
                let (sl, sh, sv) = (src.low, src.high, src.ver);
                let t = regions.get_mut(&id).unwrap();
                if sl < t.low {
                    byrange.remove(&t.low);
                    t.low = sl;
                    byrange.insert(sl, id);
                } else {
                    byrange.remove(&sl);
                    t.high = sh;
                }
                t.ver = t.ver.max(sv) + 1;
            }
            6 => {
                step(&mut regions)?;
                let r = regions.get_mut(&id).unwrap();
                r.st = St::Gone;
                let (l, h) = (r.low, r.high);
                clear(l, h, &mut commits);
                byrange.remove(&l);
            }
            8 | 2 => step(&mut regions)?,
            _ => return bad(f, format!("bad {}", c.at - 1)),
        }
        if kind == 2 || kind == 7 {
            let count = c.u32()?;
            for op in 0..count {
                let put = c.u8()? == 1;
                let fam = c.u8()?;
                let klen = c.u16()? as usize;
                let key = c.take(klen)?;
                let value = if put {
                    let l = c.u32()? as usize;
                    c.take(l)?
                } else {
                    &[][..]
                };
                let (key, ts) = if fam == 2 {
                    (key, 0)
                } else {
                    if key.len() < 8 {
                        return bad(f, format!("key {op}"));
                    }
                    let (k, t) = key.split_at(key.len() - 8);
                    (k, !u64::from_be_bytes(t.try_into().unwrap()))
                };
                let h = match key_handle(key, table) {
                    None => return bad(f, format!("key {op}")),
                    Some(None) => continue,
                    Some(Some(h)) => h,
                };
                let r = &regions[&id];
                if h < r.low || r.high.map_or(false, |x| h >= x) {
                    return bad(f, format!("key {op}"));
                }
                match (fam, put) {
                    (1, true) => {
                        defaults.insert((h, ts), value.to_vec());
                    }
                    (1, false) => {
                        defaults.remove(&(h, ts));
                    }
                    (2, true) => {
                        let mut a = 1;
                        if value.is_empty() || !b"PDLS".contains(&value[0]) {
                            return bad(f, format!("record {op}"));
                        }
                        let l = match leb(value, &mut a) {
                            Some(l) if l & 1 == 0 => (l >> 1) as usize,
                            _ => return bad(f, format!("record {op}")),
                        };
                        if value.len() - a < l {
                            return bad(f, format!("record {op}"));
                        }
                        a += l;
                        if leb(value, &mut a).is_none() {
                            return bad(f, format!("record {op}"));
                        }
                    }
                    (3, true) => {
                        if value.is_empty() || !b"PDLR".contains(&value[0]) {
                            return bad(f, format!("record {op}"));
                        }
                        let mut a = 1;
                        let start = match leb(value, &mut a) {
                            Some(s) => s,
                            None => return bad(f, format!("record {op}")),
                        };
                        let mut sv = None;
                        if a < value.len() && value[a] == b'v' {
                            let l = *value.get(a + 1).ok_or(Bad("record".into()))? as usize;
                            if value.len() < a + 2 + l {
                                return bad(f, format!("record {op}"));
                            }
                            sv = Some(&value[a + 2..a + 2 + l]);
                        }
                        if value[0] == b'L' || value[0] == b'R' {
                            continue;
                        }
                        let gone = value[0] == b'D';
                        let list = commits.entry(h).or_default();
                        if let Some(last) = list.last() {
                            if last.ts == ts && last.start == start && last.gone == gone {
                                continue;
                            }
                            if ts <= last.ts {
                                return bad(f, format!("backdated {op} {}", last.ts));
                            }
                        }
                        let v = if gone {
                            &[][..]
                        } else {
                            match sv {
                                Some(v) => v,
                                None => match defaults.get(&(h, start)) {
                                    Some(v) => v,
                                    None => return bad(f, format!("no-value {op}")),
                                },
                            }
                        };
                        if !gone {
                            let row = match Row::read(v) {
                                Some(r) => r,
                                None => return bad(f, format!("row {op}")),
                            };
                            for (cid, k) in &schema {
                                if *k < 3 {
                                    if let Some(Some(x)) = row.find(*cid) {
                                        if !matches!(x.len(), 1 | 2 | 4 | 8) {
                                            return bad(f, format!("row {op}"));
                                        }
                                    }
                                }
                            }
                            for k in 0..row.n + row.m {
                                if schema.binary_search_by_key(&row.id(k), |s| s.0).is_err() {
                                    return bad(f, format!("column {op} {}", row.id(k)));
                                }
                            }
                        }
                        list.push(Commit {
                            ts,
                            start,
                            gone,
                            value: v.to_vec(),
                        });
                    }
                    _ => {}
                }
            }
        }
        if c.at != c.end {
            return bad(f, format!("long {}", c.at));
        }
    }
    let mut out = Vec::new();
    let mut rows = 0;
    for (h, list) in &commits {
        let k = list.partition_point(|c| c.ts <= n);
        if k == 0 || list[k - 1].gone {
            continue;
        }
        rows += 1;
        write!(out, "row {h}").unwrap();
        let row = Row::read(&list[k - 1].value).unwrap();
        for (id, kind) in &schema {
            match row.find(*id).flatten() {
                None => out.extend_from_slice(b" null"),
                Some(v) => match kind {
                    1 => write!(out, " {}", int(v).unwrap()).unwrap(),
                    2 => write!(out, " {}", uint(v).unwrap()).unwrap(),
                    _ => {
                        out.extend_from_slice(b" x");
                        for c in v {
                            out.extend_from_slice(&[
                                b"0123456789abcdef"[(c >> 4) as usize],
                                b"0123456789abcdef"[(c & 15) as usize],
                            ]);
                        }
                    }
                },
            }
        }
        out.push(b'\n');
    }
    writeln!(out, "rows {rows}").unwrap();
    Ok(out)
}
fn main() {
    let a: Vec<String> = std::env::args().collect();
    let b = std::fs::read(&a[1]).unwrap();
    match run(a[2].parse().unwrap(), &b) {
        Ok(o) => std::io::stdout().write_all(&o).unwrap(),
        Err(Bad(s)) => {
            println!("{s}");
            std::process::exit(3)
        }
    }
}
