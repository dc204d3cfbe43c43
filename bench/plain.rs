//! A plain, fast program that does what `mystery` does (all commands but `replay`,
//! `why` and `verify`). It has no proofs, trusts its own arithmetic and is tuned for speed alone.
//!
//! Stages: (1) the input is cut into pieces at line ends; threads read, scan and
//! intern piece by piece and sort each piece's events by request; (2) the groups
//! of equal requests are chained into traces; (3) threads cut traces into
//! segments; (4) commands: `add` merges bit rows of refuted relations per day,
//! views walk each trace's graph and print in order.
//! BASELINE_TIMES=1 in the environment prints the time of each stage on stderr.
#![forbid(unsafe_code)]
use std::collections::{BTreeMap, HashMap, HashSet};
use std::fs::File;
use std::io::{self, Read, Write};
use std::ops::{Add, Sub};
use std::os::unix::fs::FileExt;
use std::sync::atomic::{AtomicBool, AtomicUsize, Ordering::Relaxed};
use std::sync::{Condvar, Mutex};
use std::thread;
use std::time::Instant;

const LIMIT: u64 = 67_108_864;
const T: u64 = 4_102_444_800_000_000; // in microseconds; all other times are in nanoseconds
const DAY: u64 = 86_400_000_000_000;
const NONE: u32 = u32::MAX;
const MOST: usize = 512; // names, and so segments of one trace
const PIECE: u64 = 256 * 1024;
const PAD: usize = 16; // readable bytes behind every scanned buffer
type Bits = [u64; 8];
const EMPTY: Bits = [0; 8];

// ---- small helpers ----

const LO: u64 = 0x0101_0101_0101_0101;
const HI: u64 = 0x8080_8080_8080_8080;

#[inline(always)]
fn load(b: &[u8], i: usize) -> u64 {
    let mut t = [0; 8];
    t.copy_from_slice(&b[i..i + 8]);
    u64::from_le_bytes(t)
}
/// Marks the bytes that end the plain part of a string: quote, backslash,
/// control, DEL, non-ASCII. Borrows and carries go up, so the lowest mark is exact.
#[inline(always)]
fn special(x: u64) -> u64 {
    let ends = (x ^ (LO * 0x22)).wrapping_sub(LO) | (x ^ (LO * 0x5c)).wrapping_sub(LO);
    (x | x.wrapping_add(LO) | x.wrapping_sub(LO * 0x20) | ends) & HI
}
#[inline(always)]
fn low_bytes(n: usize) -> u64 {
    if n >= 8 { !0 } else { (1u64 << (8 * n)) - 1 }
}
#[inline(always)]
fn bit(r: &Bits, i: usize) -> bool {
    r[(i >> 6) & 7] >> (i & 63) & 1 == 1
}
#[inline(always)]
fn set(r: &mut Bits, i: usize) {
    r[(i >> 6) & 7] |= 1 << (i & 63);
}
#[inline(always)]
fn or(a: &mut Bits, b: &Bits) {
    a.iter_mut().zip(b).for_each(|(x, y)| *x |= y);
}

const PAIRS: [[u8; 2]; 100] = {
    let (mut t, mut i) = ([[0; 2]; 100], 0);
    while i < 100 {
        t[i] = [b'0' + i as u8 / 10, b'0' + i as u8 % 10];
        i += 1;
    }
    t
};
fn num(out: &mut Vec<u8>, mut n: u64) {
    let (mut t, mut i) = ([0u8; 20], 18);
    loop {
        t[i..i + 2].copy_from_slice(&PAIRS[(n % 100) as usize]);
        n /= 100;
        if n == 0 {
            return out.extend_from_slice(&t[i + (t[i] == b'0') as usize..]);
        }
        i -= 2;
    }
}
fn field(out: &mut Vec<u8>, n: impl Into<u128>) {
    out.push(b'\t');
    let n = n.into();
    if n <= u64::MAX as u128 { num(out, n as u64) } else { out.extend_from_slice(n.to_string().as_bytes()) }
}
fn texts(out: &mut Vec<u8>, list: &[&[u8]]) {
    list.iter().for_each(|t| out.extend_from_slice(t));
}

// ---- interned texts ----

struct Entry { w0: u64, w1: u64, off: u32, len: u32, hash: u64 }

/// Texts numbered by first sight; the bytes stand in one arena.
struct Interner { bytes: Vec<u8>, ents: Vec<Entry>, table: Vec<u32> }

impl Default for Interner {
    fn default() -> Interner {
        Interner { bytes: Vec::new(), ents: Vec::new(), table: vec![0; 256] }
    }
}

/// The first 16 bytes of a text, and a hash of all.
#[inline(always)]
fn words(b: &[u8], s: usize, len: usize) -> (u64, u64) {
    (load(b, s) & low_bytes(len), if len > 8 { load(b, s + 8) & low_bytes(len - 8) } else { 0 })
}
#[inline(always)]
fn hash(b: &[u8], s: usize, len: usize, w0: u64, w1: u64) -> u64 {
    let mix = |h: u64, w: u64| (h ^ (h >> 32) ^ w).wrapping_mul(0xd6e8_feb8_6659_fd93);
    let mut h = mix((w0 ^ len as u64).wrapping_mul(0x9e37_79b9_7f4a_7c15), w1);
    for i in (16..len).step_by(8) {
        h = mix(h, load(b, s + i) & low_bytes(len - i));
    }
    h ^ (h >> 32)
}

impl Interner {
    /// The number of the text of `len` bytes at `s`, with PAD bytes behind it.
    #[inline]
    fn get(&mut self, b: &[u8], s: usize, len: usize) -> u32 {
        let (w0, w1) = words(b, s, len);
        let h = hash(b, s, len, w0, w1);
        let mask = self.table.len() - 1;
        let mut i = h as usize & mask;
        while self.table[i] != 0 {
            let id = self.table[i] - 1;
            if self.same(id, b, s, len, w0, w1) {
                return id;
            }
            i = (i + 1) & mask;
        }
        let off = self.bytes.len() as u32;
        self.insert(i, Entry { w0, w1, off, len: len as u32, hash: h }, &b[s..s + len])
    }
    #[inline(always)]
    fn same(&self, id: u32, b: &[u8], s: usize, len: usize, w0: u64, w1: u64) -> bool {
        let e = &self.ents[id as usize];
        e.w0 == w0 && e.w1 == w1 && e.len as usize == len && (len <= 16 || self.text(id)[16..] == b[s + 16..s + len])
    }
    #[inline(never)]
    fn insert(&mut self, at: usize, e: Entry, text: &[u8]) -> u32 {
        self.bytes.extend_from_slice(text);
        self.ents.push(e);
        self.table[at] = self.ents.len() as u32;
        if self.ents.len() * 2 > self.table.len() {
            let size = self.table.len() * 4;
            self.table = vec![0; size];
            for (k, e) in self.ents.iter().enumerate() {
                let mut i = e.hash as usize & (size - 1);
                while self.table[i] != 0 {
                    i = (i + 1) & (size - 1);
                }
                self.table[i] = k as u32 + 1;
            }
        }
        self.ents.len() as u32 - 1
    }
    fn text(&self, id: u32) -> &[u8] {
        let e = &self.ents[id as usize];
        &self.bytes[e.off as usize..(e.off + e.len) as usize]
    }
    /// Takes the texts of another one; gives the numbers that they have here.
    fn merge(&mut self, other: &mut Interner) -> Vec<u32> {
        other.bytes.extend_from_slice(&[0; PAD]);
        other.ents.iter().map(|e| self.get(&other.bytes, e.off as usize, e.len as usize)).collect()
    }
}

// ---- words and sources ----

#[derive(Clone, Copy, PartialEq)]
enum Command {
    Add,
    Drop(u32),
    Keep(u32),
    Watch(u32),
    Grace(u32),
    Model,
    Paths,
    Slack,
    Report,
    Graph,
    Summary,
    WhatIf(u64, u64),
    Tail,
}

enum Stop { Usage, Bad(u32, &'static str), File(usize), Write, Limit(u64, &'static str), Size }

fn plain(s: &str, least: u64, most: u64) -> Option<u64> {
    let digits = s.len() <= 10 && s.bytes().all(|b| b.is_ascii_digit()) && (s.len() == 1 || !s.starts_with('0'));
    s.parse().ok().filter(|n| digits && (least..=most).contains(n))
}

/// A regular file is read piece by piece, anything else at once.
enum Source { Disk(File, u64), Mem(Vec<u8>) }

impl Source {
    fn len(&self) -> u64 {
        match self {
            Source::Disk(_, n) => *n,
            Source::Mem(v) => v.len() as u64,
        }
    }
    fn fetch(&self, at: u64, into: &mut [u8]) -> io::Result<usize> {
        let mut n = 0;
        match self {
            Source::Disk(f, _) => loop {
                match f.read_at(&mut into[n..], at + n as u64) {
                    Ok(0) => return Ok(n),
                    Ok(k) => n += k,
                    Err(e) if e.kind() == io::ErrorKind::Interrupted => {}
                    Err(e) => return Err(e),
                }
            },
            Source::Mem(v) => {
                n = into.len().min(v.len() - at as usize);
                into[..n].copy_from_slice(&v[at as usize..at as usize + n]);
                Ok(n)
            }
        }
    }
}

/// The lines that start in `from..to` of a source, or the traces of `drill`.
enum Piece {
    Lines { file: usize, from: u64, to: u64 },
    Drill { x: u64, from: u32, to: u32 },
}

fn open_all(files: &[String]) -> Result<Vec<Source>, Stop> {
    let mut total = 0u64;
    let mut all = Vec::new();
    for (k, name) in files.iter().enumerate() {
        let fault = |_| Stop::File(k + 1);
        let f = File::open(name).map_err(fault)?;
        let meta = f.metadata().map_err(fault)?;
        let mut last = [b'\n'];
        let src = if meta.is_file() && meta.len() > 0 {
            f.read_exact_at(&mut last, meta.len() - 1).map_err(fault)?;
            Source::Disk(f, meta.len())
        } else {
            let mut v = Vec::new();
            (&f).take(LIMIT + 1).read_to_end(&mut v).map_err(fault)?;
            last[0] = v.last().copied().unwrap_or(b'\n');
            Source::Mem(v)
        };
        total += src.len() + (last[0] != b'\n') as u64;
        if total > LIMIT {
            return Err(Stop::Size);
        }
        all.push(src);
    }
    Ok(all)
}

/// Brings the lines of a piece into `buf`; they stand in the range given back,
/// each with its line feed, and PAD bytes may be read behind them.
fn bring(sources: &[Source], piece: &Piece, buf: &mut Vec<u8>) -> io::Result<(usize, usize)> {
    let newline = |b: &[u8]| b.iter().position(|&c| c == b'\n');
    let (file, from, to) = match *piece {
        Piece::Lines { file, from, to } => (file, from, to),
        Piece::Drill { mut x, from, to } => {
            buf.clear();
            (from..to).for_each(|k| drill_trace(&mut x, k, buf));
            buf.extend_from_slice(&[0; PAD]);
            return Ok((0, buf.len() - PAD));
        }
    };
    let len = sources[file].len();
    let base = from.saturating_sub(1);
    let (mut have, mut want) = (0, (to - base) as usize + 2048);
    let end = loop {
        want = want.min((len - base) as usize);
        buf.resize(buf.len().max(want + 1 + PAD), 0);
        let n = sources[file].fetch(base + have as u64, &mut buf[have..want])?;
        let last = ((to - 1 - base) as usize).max(have).min(have + n);
        have += n;
        if let Some(p) = newline(&buf[last..have]) {
            break last + p + 1;
        }
        if n == 0 || base + have as u64 >= len {
            buf[have] = b'\n'; // the file's last line has no line feed
            break have + 1;
        }
        want = have + 65536;
    };
    let start = if from == 0 { 0 } else { newline(&buf[..end]).map_or(end, |p| p + 1) };
    // A line that starts at `to` or later belongs to the next piece.
    Ok(if start as u64 + base >= to { (end, end) } else { (start, end) })
}

fn drill_trace(x: &mut u64, k: u32, out: &mut Vec<u8>) {
    let d = [0; 5].map(|_| {
        *x = (*x * 1103515245 + 12345) % 2147483648;
        *x / 65536 % 1000
    });
    let b = (19800 + k as u64 / 1000) * (DAY / 1000) + k as u64 % 1000 * 1_000_000;
    let (q, e) = (b + d[0] + d[1], d[2].max(d[3]));
    let rows: [(&str, &str, &str, u64, &str); 11] = [
        ("c", "client", "start", b, ""),
        ("c", "client", "sent", b + d[0], ",\"send\":\"q\""),
        ("w", "web", "got", b + d[0] + 105, ",\"recv\":\"q\""),
        ("w", "web", "built", q + 105, ""),
        ("w", "db", "begin@page", q + 105, ""),
        ("w", "db", "end", q + d[2] + 105, ""),
        ("w", "ads", "begin@page", q + 105, ""),
        ("w", "ads", "end", q + d[3] + 105, ""),
        ("w", "web", "replied", q + e + 105, ",\"send\":\"p\""),
        ("c", "render", "shown@page", q + e + 10, ",\"recv\":\"p\""),
        ("c", "render", "done", q + e + d[4] + 10, ""),
    ];
    for (machine, task, event, time, message) in rows {
        out.extend_from_slice(b"{\"request\":\"r");
        num(out, k as u64);
        for (key, value) in [("machine", machine), ("task", task), ("event", event)] {
            texts(out, &[b"\",\"", key.as_bytes(), b"\":\"", value.as_bytes()]);
        }
        out.extend_from_slice(b"\",\"time\":");
        num(out, time);
        texts(out, &[message.as_bytes(), b"}\n"]);
    }
}

// ---- scanning lines ----

/// An event line; texts are numbers of its shard, messages places in the
/// shard's list of messages, the line counts within the part.
#[derive(Clone, Copy, Default)]
struct Ev { time: u64, line: u32, machine: u32, task: u32, event: u32, send: u32, recv: u32 }

/// What one piece gave. Between two control lines the events are sorted by
/// request; a group is a request and the end of its events.
#[derive(Default)]
struct Part {
    piece: usize,
    shard: usize,
    base: u32,
    lines: u32,
    events: Vec<Ev>,
    groups: Vec<(u32, u32)>,
    controls: Vec<(usize, Command)>, // after so many groups
    bad: Option<(u32, &'static str)>,
}

// Kinds of values: a text in the buffer; one in the scratch; one that no text
// member may have; a whole number; a negative one; null; any other.
const ABSENT: u8 = 0;
const PLAIN: u8 = 1;
const ESCAPED: u8 = 2;
const ODD: u8 = 3;
const UINT: u8 = 4;
const NEG: u8 = 5;
const NULL: u8 = 6;
const OTHER: u8 = 7;

#[derive(Clone, Copy, Default)]
struct Slot { kind: u8, len: u32, val: u64 }
const ANY: Slot = Slot { kind: OTHER, len: 0, val: 0 };

// Slots 0 to 3 are request, machine, task, event; the last one takes all others.
const TIME: usize = 4;
const SEND: usize = 5;
const RECV: usize = 6;
const NANOS: usize = 7;
const DO: usize = 8;
const NUMBER: usize = 9; // day 9, days 10, every 11, micros 12
const SLOTS: usize = 14;

/// A key with its closing quote as a number, its mask and its length.
const fn key(s: &[u8]) -> (u64, u64, usize) {
    let (mut k, mut i) = (b'"' as u64, s.len());
    while i > 0 {
        i -= 1;
        k = k << 8 | s[i] as u64;
    }
    (k, if s.len() == 7 { !0 } else { (1 << (8 * s.len() + 8)) - 1 }, s.len())
}
const KEYS: [(u64, u64, usize); SLOTS] = [
    key(b"request"), key(b"machine"), key(b"task"), key(b"event"), key(b"time"), key(b"send"), key(b"recv"),
    key(b"nanos"), key(b"do"), key(b"day"), key(b"days"), key(b"every"), key(b"micros"), (1, 0, 0),
];
/// The kinds that make a slot good in an event line, as bits.
const TEXT: u8 = 1 << PLAIN | 1 << ESCAPED;
const GOOD: [u8; SLOTS] =
    [TEXT, TEXT, TEXT, TEXT, 1 << UINT, TEXT | 1 << NULL, TEXT | 1 << NULL, 1 << UINT, 0, 0, 0, 0, 0, 0];

/// One thread's texts and its line scanner.
#[derive(Default)]
struct Shard {
    texts: [Interner; 4], // requests, machines, tasks, events
    messages: Vec<u8>,    // each a length and its bytes
    scratch: Vec<u8>,
    slots: [Slot; SLOTS],
    seen: u32,                 // slots that the line has
    good: u32,                 // and those that are good
    order: [u8; 16],           // slot of each member of the line before
    fresh: Vec<(Ev, u32)>,     // events since the last control line, with their groups
    group_of: Vec<(u32, u32)>, // per request: section, group
    section: u32,
}

#[inline(always)]
fn ws(b: &[u8], mut i: usize) -> usize {
    while matches!(b[i], b' ' | b'\t' | b'\r') {
        i += 1;
    }
    i
}
#[inline(always)]
fn expect(b: &[u8], i: usize, c: u8) -> Option<usize> {
    if b[i] == c { Some(i + 1) } else { None }
}

impl Shard {
    /// The string whose first byte after the quote is `i`; also the place behind it.
    #[inline(always)]
    fn string(&mut self, b: &[u8], i: usize) -> Option<(Slot, usize)> {
        let mut j = i;
        loop {
            let (m0, m1) = (special(load(b, j)), special(load(b, j + 8)));
            if m0 | m1 != 0 {
                j += if m0 != 0 { m0.trailing_zeros() / 8 } else { 8 + m1.trailing_zeros() / 8 } as usize;
                if b[j] != b'"' {
                    return self.slow_string(b, i, j);
                }
                let kind = if (j - i).wrapping_sub(1) < 64 { PLAIN } else { ODD };
                return Some((Slot { kind, len: (j - i) as u32, val: i as u64 }, j + 1));
            }
            j += 16;
        }
    }
    #[cold]
    fn slow_string(&mut self, b: &[u8], i: usize, mut j: usize) -> Option<(Slot, usize)> {
        let start = self.scratch.len();
        self.scratch.extend_from_slice(&b[i..j]);
        loop {
            j += 1;
            let c = match (b[j - 1], b[j]) {
                (b'"', _) => break,
                (0..=31, _) => return None,
                (b'\\', e) => {
                    j += 1;
                    match e {
                        b'"' | b'\\' | b'/' => e,
                        b'b' => 8,
                        b'f' => 12,
                        b'n' => 10,
                        b'r' => 13,
                        b't' => 9,
                        b'u' => {
                            let mut c = hex4(b, j)?;
                            j += 4;
                            if (0xd800..0xdc00).contains(&c) {
                                let low = hex4(b, expect(b, expect(b, j, b'\\')?, b'u')?)?;
                                if !(0xdc00..0xe000).contains(&low) {
                                    return None;
                                }
                                j += 6;
                                c = 0x10000 + ((c - 0xd800) << 10) + (low - 0xdc00);
                            }
                            self.scratch.extend_from_slice(char::from_u32(c)?.encode_utf8(&mut [0; 4]).as_bytes());
                            continue;
                        }
                        _ => return None,
                    }
                }
                (c, _) => c,
            };
            self.scratch.push(c);
        }
        let text = &self.scratch[start..];
        std::str::from_utf8(text).ok()?;
        let len = text.len();
        let odd = len == 0 || len > 64 || text.iter().any(|&c| c < 32 || c == 127);
        self.scratch.extend_from_slice(&[0; PAD]);
        Some((Slot { kind: if odd { ODD } else { ESCAPED }, len: len as u32, val: start as u64 }, j))
    }

    /// Literals, arrays, objects; `depth` levels may still be opened.
    #[inline(never)]
    fn rare(&mut self, b: &[u8], mut i: usize, depth: u32) -> Option<(Slot, usize)> {
        match b[i] {
            b'n' if b[i..].starts_with(b"null") => Some((Slot { kind: NULL, ..ANY }, i + 4)),
            b't' if b[i..].starts_with(b"true") => Some((ANY, i + 4)),
            b'f' if b[i..].starts_with(b"false") => Some((ANY, i + 5)),
            b'"' => self.string(b, i + 1),
            b'-' | b'0'..=b'9' => number(b, i),
            open @ (b'[' | b'{') if depth > 1 => {
                i = ws(b, i + 1);
                if b[i] == open + 2 {
                    return Some((ANY, i + 1));
                }
                loop {
                    if open == b'{' {
                        i = ws(b, self.string(b, expect(b, i, b'"')?)?.1);
                        i = ws(b, expect(b, i, b':')?);
                    }
                    i = ws(b, self.rare(b, i, depth - 1)?.1);
                    if b[i] == open + 2 {
                        return Some((ANY, i + 1));
                    }
                    i = ws(b, expect(b, i, b',')?);
                }
            }
            _ => None,
        }
    }

    /// Reads the object at `i` into the slots; gives the place of its line feed.
    /// Members mostly stand in the order of the line before.
    #[inline(always)]
    fn object(&mut self, b: &[u8], i: usize) -> Option<usize> {
        (self.seen, self.good) = (0, 0);
        self.scratch.clear();
        let mut i = ws(b, expect(b, i, b'{')?);
        let mut member = 0;
        let mut more = b[i] != b'}';
        while more {
            i = expect(b, i, b'"')?;
            let mut slot = self.order[member & 15] as usize;
            let (k, mask, len) = KEYS[slot];
            if load(b, i) & mask == k {
                i += len + 1;
            } else {
                (slot, i) = self.other_key(b, i)?;
                self.order[member & 15] = slot as u8;
            }
            member += 1;
            i = ws(b, expect(b, ws(b, i), b':')?);
            let v;
            (v, i) = match b[i] {
                b'"' => self.string(b, i + 1)?,
                b'0'..=b'9' => number(b, i)?,
                _ => self.rare(b, i, 127)?,
            };
            self.slots[slot] = v;
            self.seen |= 1 << slot;
            self.good = self.good & !(1 << slot) | ((GOOD[slot] >> v.kind & 1) as u32) << slot;
            i = ws(b, i);
            more = b[i] == b',';
            if more {
                i = ws(b, i + 1);
            }
        }
        i = ws(b, expect(b, i, b'}')?);
        if b[i] == b'\n' { Some(i) } else { None }
    }
    #[inline(never)]
    fn other_key(&mut self, b: &[u8], i: usize) -> Option<(usize, usize)> {
        let word = load(b, i);
        if let Some(slot) = KEYS.iter().position(|key| word & key.1 == key.0) {
            return Some((slot, i + KEYS[slot].2 + 1));
        }
        let (k, next) = self.string(b, i)?;
        let mut slot = SLOTS - 1;
        if k.len <= 7 && k.kind != ODD {
            let from: &[u8] = if k.kind == PLAIN { b } else { &self.scratch };
            let name = load(from, k.val as usize) & low_bytes(k.len as usize) | (b'"' as u64) << (8 * k.len);
            slot = KEYS.iter().position(|key| key.0 == name).unwrap_or(slot);
        }
        Some((slot, next))
    }

    fn control(&self, b: &[u8]) -> Result<Command, &'static str> {
        let Slot { kind, len, val } = self.slots[DO];
        let from = match kind {
            PLAIN => b,
            ESCAPED => &self.scratch,
            ODD => return Err("unknown command"),
            _ => return Err("wrong kind"),
        };
        let number = |at: usize| match self.slots[at] {
            Slot { kind: ABSENT, .. } => Err("missing member"),
            Slot { kind: UINT, val, .. } if val <= 1_000_000 => Ok(val as u32),
            Slot { kind: UINT | NEG, .. } => Err("out of range"),
            _ => Err("wrong kind"),
        };
        match &from[val as usize..val as usize + len as usize] {
            b"add" => Ok(Command::Add),
            b"drop" => number(NUMBER).map(Command::Drop),
            b"keep" => number(NUMBER + 1).map(Command::Keep),
            b"watch" => number(NUMBER + 2).map(Command::Watch),
            b"grace" => number(NUMBER + 3).map(Command::Grace),
            b"model" => Ok(Command::Model),
            b"paths" => Ok(Command::Paths),
            b"slack" => Ok(Command::Slack),
            b"report" => Ok(Command::Report),
            b"graph" => Ok(Command::Graph),
            _ => Err("unknown command"),
        }
    }

    /// The slot that gives an event line's time, its unit in nanoseconds and its greatest number.
    #[inline(always)]
    fn clock(&self) -> (usize, u64, u64) {
        let second = self.seen >> NANOS & 1 != 0 && self.slots[NANOS].kind != NULL;
        if second { (NANOS, 1, 1000 * T) } else { (TIME, 1000, T) }
    }

    /// Whether an event line is good, and why not.
    #[cold]
    fn judge(&self) -> Result<(), &'static str> {
        let text = |k: u8| (PLAIN..=ODD).contains(&k);
        let s = self.slots.map(|s| s.kind);
        let (time, _, most) = self.clock();
        if s[..TIME].contains(&ABSENT) || s[time] == ABSENT {
            return Err("missing member");
        }
        let optional = |k: u8| text(k) || k == ABSENT || k == NULL;
        if !s[..TIME].iter().all(|&k| text(k)) || !optional(s[SEND]) || !optional(s[RECV]) || !matches!(s[time], UINT | NEG) {
            return Err("wrong kind");
        }
        if s[time] == NEG || self.slots[time].val > most {
            return Err("out of range");
        }
        if s[..=RECV].contains(&ODD) { Err("bad text") } else { Ok(()) }
    }

    /// The place of a message in the list, NONE for null and absent ones.
    fn message(&mut self, b: &[u8], at: usize) -> u32 {
        let Slot { kind, len, val } = self.slots[at];
        if self.seen >> at & 1 == 0 || kind == NULL {
            return NONE;
        }
        let from: &[u8] = if kind == PLAIN { b } else { &self.scratch };
        let place = self.messages.len() as u32;
        self.messages.push(len as u8);
        self.messages.extend_from_slice(&from[val as usize..val as usize + len as usize]);
        place
    }

    fn scan(&mut self, b: &[u8], (mut i, end): (usize, usize), part: &mut Part) {
        part.events.reserve((end - i) / 100);
        self.section += 1;
        self.fresh.clear(); // of a piece that ended with a bad line
        while i < end {
            i = ws(b, i);
            if b[i] == b'\n' {
                (i, part.lines) = (i + 1, part.lines + 1);
                continue;
            }
            let Some(feed) = self.object(b, i) else {
                part.bad = Some((part.lines, "not a JSON object"));
                return;
            };
            i = feed + 1;
            let (time, unit, most) = self.clock();
            let (five, messages) = ((1 << TIME) - 1 | 1 << time, 1 << SEND | 1 << RECV);
            let good = self.good & five == five && (self.seen ^ self.good) & messages == 0 && self.slots[time].val <= most;
            let control = self.seen >> DO & 1 != 0;
            if control || !good {
                for k in 0..SLOTS {
                    if self.seen >> k & 1 == 0 {
                        self.slots[k].kind = ABSENT;
                    }
                }
                let answer = if control {
                    self.close(part);
                    self.control(b).map(|c| part.controls.push((part.groups.len(), c)))
                } else {
                    self.judge()
                };
                if let Err(why) = answer {
                    part.bad = Some((part.lines, why));
                    return;
                }
                if control {
                    part.lines += 1;
                    continue;
                }
            }
            let ([r, m, t, e, ..], time) = (self.slots, self.slots[time].val * unit);
            let (mut send, mut recv) = (NONE, NONE);
            if self.seen & messages != 0 {
                (send, recv) = (self.message(b, SEND), self.message(b, RECV));
            }
            let scratch: &[u8] = &self.scratch;
            let buf = |s: Slot| if s.kind == PLAIN { b } else { scratch };
            let [reqs, machines, tasks, events] = &mut self.texts;
            let (from, len) = (r.val as usize, r.len as usize);
            let (w0, w1) = words(buf(r), from, len);
            let group = match self.fresh.last() {
                Some(&(_, g)) if reqs.same(part.groups[g as usize].0, buf(r), from, len, w0, w1) => g,
                _ => {
                    let req = reqs.get(buf(r), from, len);
                    if req as usize == self.group_of.len() {
                        self.group_of.push((0, 0));
                    }
                    let g = &mut self.group_of[req as usize];
                    if g.0 != self.section {
                        *g = (self.section, part.groups.len() as u32);
                        part.groups.push((req, 0));
                    }
                    g.1
                }
            };
            part.groups[group as usize].1 += 1;
            let machine = machines.get(buf(m), m.val as usize, m.len as usize);
            let task = tasks.get(buf(t), t.val as usize, t.len as usize);
            let event = events.get(buf(e), e.val as usize, e.len as usize);
            self.fresh.push((Ev { time, line: part.lines, machine, task, event, send, recv }, group));
            part.lines += 1;
        }
        self.close(part);
    }

    /// Sorts the fresh events by group and begins a new section.
    fn close(&mut self, part: &mut Part) {
        let Some(&(_, first)) = self.fresh.first() else { return };
        let mut at = part.events.len() as u32;
        for g in &mut part.groups[first as usize..] {
            (g.1, at) = (at, at + g.1);
        }
        part.events.resize(at as usize, Ev::default());
        for (ev, g) in self.fresh.drain(..) {
            let place = &mut part.groups[g as usize].1;
            part.events[*place as usize] = ev;
            *place += 1;
        }
        self.section += 1;
    }
}

fn hex4(b: &[u8], i: usize) -> Option<u32> {
    b[i..i + 4].iter().try_fold(0, |v, &c| Some(v << 4 | (c as char).to_digit(16)?))
}

#[inline(always)]
fn number(b: &[u8], start: usize) -> Option<(Slot, usize)> {
    let (mut i, mut n) = (start, 0u64);
    loop {
        let w = load(b, i);
        let low = w.wrapping_sub(LO * 0x30);
        if (low | w.wrapping_add(LO * 0x46)) & HI != 0 {
            break;
        }
        // Eight digits at once.
        let v = low.wrapping_mul(10).wrapping_add(low >> 8);
        let hi = (v & 0x0000_00ff_0000_00ff).wrapping_mul(0x000f_4240_0000_0064);
        let lo = (v >> 16 & 0x0000_00ff_0000_00ff).wrapping_mul(0x0000_2710_0000_0001);
        n = n.wrapping_mul(100_000_000).wrapping_add(hi.wrapping_add(lo) >> 32);
        i += 8;
    }
    while b[i].is_ascii_digit() {
        n = n.wrapping_mul(10).wrapping_add((b[i] - b'0') as u64);
        i += 1;
    }
    let count = i - start;
    if count == 0 || count > 19 || matches!(b[i], b'.' | b'e' | b'E') || (b[start] == b'0' && count > 1) {
        return rare_number(b, start);
    }
    Some((Slot { kind: UINT, len: 0, val: n }, i))
}
#[cold]
fn rare_number(b: &[u8], start: usize) -> Option<(Slot, usize)> {
    let digits = |mut i: usize| {
        let from = i;
        while b[i].is_ascii_digit() {
            i += 1;
        }
        if i > from { Some(i) } else { None }
    };
    let neg = b[start] == b'-';
    let first = start + neg as usize;
    let mut i = if b[first] == b'0' { first + 1 } else { digits(first)? };
    let whole = !matches!(b[i], b'.' | b'e' | b'E');
    if b[i] == b'.' {
        i = digits(i + 1)?;
    }
    if matches!(b[i], b'e' | b'E') {
        i = digits(i + 1 + matches!(b[i + 1], b'+' | b'-') as usize)?;
    }
    let text = std::str::from_utf8(&b[start..i]).ok()?;
    let mut slot = ANY;
    if let (true, Ok(val)) = (whole, text.parse()) {
        slot = Slot { kind: UINT, len: 0, val };
    } else if whole && text.parse::<i64>().is_ok_and(|n| n < 0) {
        slot.kind = NEG;
    } else if text.parse::<f64>().ok()?.is_infinite() {
        return None; // a float is no whole number, and an infinite one has no reading
    }
    Some((slot, i))
}

// ---- gathering ----

/// Events of a trace that stand together; `next` is the trace's next slice.
#[derive(Clone, Copy)]
struct Slice { part: u32, from: u32, to: u32, next: u32 }

/// The events of the whole input, grouped into traces.
#[derive(Default)]
struct Log {
    parts: Vec<Part>,
    maps: Vec<[Vec<u32>; 4]>, // per shard: the numbers that its texts have here
    messages: Vec<Vec<u8>>,   // per shard
    texts: [Interner; 4],     // requests, machines, tasks, events
    req: Vec<u32>,            // of each trace
    first: Vec<u32>,          // slice of each trace
    before: Vec<u32>,         // events before each trace, and the end
    slices: Vec<Slice>,
}

enum Step {
    Add(usize, usize), // traces of the batch
    Do(Command),
    End(Stop), // an `add` that passes a limit of names or tasks
}

fn gather(parts: Vec<Part>, shards: Vec<Shard>, tail: &[Command]) -> (Log, Vec<Step>) {
    let mut log = Log::default();
    for mut s in shards {
        let (all, mut k) = (&mut log.texts, 0);
        log.maps.push(s.texts.each_mut().map(|t| {
            k += 1;
            all[k - 1].merge(t)
        }));
        s.messages.extend_from_slice(&[0; PAD]);
        log.messages.push(s.messages);
    }
    // Number the traces: one per request and batch, by first line.
    let mut seen = vec![(0u32, 0u32); log.texts[0].ents.len()]; // batch, trace
    let (mut steps, mut batch, mut start) = (Vec::new(), 1u32, 0);
    let mut found: Vec<(u32, u32)> = Vec::new(); // per trace: last slice, events
    let mut step = |c: Command, traces: usize, batch: &mut u32| match c {
        Command::Add => {
            steps.push(Step::Add(start, traces));
            (start, *batch) = (traces, *batch + 1);
        }
        c => steps.push(Step::Do(c)),
    };
    for (p, part) in parts.iter().enumerate() {
        let mut controls = part.controls.iter().peekable();
        let mut from = 0;
        for k in 0..=part.groups.len() {
            while let Some(c) = controls.next_if(|c| c.0 == k) {
                step(c.1, found.len(), &mut batch);
            }
            let Some(&(req, to)) = part.groups.get(k) else { break };
            let req = log.maps[part.shard][0][req as usize];
            let slice = log.slices.len() as u32;
            log.slices.push(Slice { part: p as u32, from, to, next: NONE });
            let s = &mut seen[req as usize];
            if s.0 != batch {
                *s = (batch, found.len() as u32);
                found.push((slice, to - from));
                log.req.push(req);
                log.first.push(slice);
            } else {
                let t = &mut found[s.1 as usize];
                log.slices[t.0 as usize].next = slice;
                *t = (slice, t.1 + to - from);
            }
            from = to;
        }
    }
    tail.iter().for_each(|&c| step(c, found.len(), &mut batch));
    found.truncate(start); // lines after the last add belong to no trace
    let mut sum = 0;
    for t in &found {
        log.before.push(sum);
        sum += t.1;
    }
    log.before.push(sum);
    log.parts = parts;
    (log, steps)
}

// ---- cutting traces ----

#[derive(Clone, Copy)]
struct Seg { start: i64, end: i64, name: u16 }
impl Seg {
    fn weight(&self) -> u64 {
        self.end.wrapping_sub(self.start) as u64
    }
}

/// A valid trace; its segments stand in vertex order in its block.
#[derive(Clone, Copy, Default)]
struct Trace { latency: u64, day: u32, block: u32, first: u32, count: u32, grace: u32, slow: bool }
const REFUSED: u32 = u32::MAX; // as count

type Fault = (&'static str, u32);
type Triple = (u32, u32, u32);

/// The names and tasks that all threads share.
#[derive(Default)]
struct Catalogue { names: Vec<(Triple, u8)>, tasks: Vec<u32>, map: HashMap<Triple, u16> }

impl Catalogue {
    /// None where a limit is passed.
    fn get(&mut self, t: Triple) -> Option<u16> {
        if let Some(&n) = self.map.get(&t) {
            return Some(n);
        }
        let task = self.tasks.iter().position(|&x| x == t.0).unwrap_or(self.tasks.len());
        if self.names.len() == MOST || task == 64 {
            return None;
        }
        if task == self.tasks.len() {
            self.tasks.push(t.0);
        }
        self.map.insert(t, self.names.len() as u16);
        self.names.push((t, task as u8));
        Some(self.names.len() as u16 - 1)
    }
}

/// The catalogue, and whether a limit was passed.
#[derive(Default)]
struct Shared { catalogue: Mutex<Catalogue>, passed: AtomicBool }

impl Shared {
    /// A name's number, by way of a thread's own table of 2,048 places.
    fn name(&self, own: &mut [(Triple, u16)], t: Triple) -> u16 {
        let h = (t.0 as u64 ^ (t.1 as u64) << 21 ^ (t.2 as u64) << 42).wrapping_mul(0x9e37_79b9_7f4a_7c15);
        let mut i = (h >> 53) as usize;
        while own[i].0 .0 != NONE {
            if own[i].0 == t {
                return own[i].1;
            }
            i = (i + 1) & 2047;
        }
        let Some(n) = self.catalogue.lock().unwrap().get(t) else {
            self.passed.store(true, Relaxed);
            return 0;
        };
        own[i] = (t, n);
        n
    }
}

#[derive(Clone, Copy)]
struct CutEv { ev: Ev, shard: u32, adjusted: i64 }

/// A message of a trace: where its text stands, its sending and receiving event.
struct Message { shard: u32, place: u32, ends: [u32; 2] }

/// One thread's tables for cutting. Stamps with the tick spare clearing.
#[derive(Default)]
struct Cutter {
    tick: u32,
    mark: u32,
    evs: Vec<CutEv>,
    task_slot: Vec<(u32, u32)>,
    machine_slot: Vec<(u32, u32)>,
    event_seen: Vec<u32>,
    slots: Vec<u32>,
    ends: Vec<u32>,
    order: Vec<u32>,
    table: Vec<(u32, u32)>, // tick, message
    found: Vec<Message>,
    links: Vec<(u32, u32, i64)>, // from, to, least difference
    machines: Vec<u32>,
    offset: Vec<Option<i128>>,
    level: Vec<u32>,
    below: Vec<u32>,
    names: Vec<(Triple, u16)>,
    triples: Vec<Triple>, // names of the trace's segments by place
}

impl Cutter {
    fn new(log: &Log) -> Cutter {
        let [_, machines, tasks, events] = log.texts.each_ref().map(|t| t.ents.len());
        Cutter {
            task_slot: vec![(0, 0); tasks],
            machine_slot: vec![(0, 0); machines],
            event_seen: vec![0; events],
            table: vec![(0, 0); 16384],
            names: vec![((NONE, 0, 0), 0); 2048],
            ..Cutter::default()
        }
    }

    /// The number of a message within the trace.
    fn find(&mut self, log: &Log, shard: u32, place: u32, mask: usize) -> usize {
        let text = |shard: u32, place: u32| {
            let m = &log.messages[shard as usize];
            let at = place as usize + 1;
            (m, at, m[at - 1] as usize)
        };
        let (b, s, len) = text(shard, place);
        let (w0, w1) = words(b, s, len);
        let mut i = hash(b, s, len, w0, w1) as usize & mask;
        while self.table[i].0 == self.tick {
            let k = self.table[i].1 as usize;
            let (b2, s2, len2) = text(self.found[k].shard, self.found[k].place);
            if b[s..s + len] == b2[s2..s2 + len2] {
                return k;
            }
            i = (i + 1) & mask;
        }
        self.table[i] = (self.tick, self.found.len() as u32);
        self.found.push(Message { shard, place, ends: [NONE; 2] });
        self.found.len() - 1
    }

    /// Leaves the trace's names by place in `triples` and, where there is a
    /// catalogue, its segments at the end of `segs`; gives its day and latency.
    fn cut(&mut self, log: &Log, trace: usize, shared: Option<&Shared>, segs: &mut Vec<Seg>) -> Result<(u32, u64), Fault> {
        let n = (log.before[trace + 1] - log.before[trace]) as usize;
        if n > 4096 {
            return Err(("too many events", n as u32));
        }
        self.tick += 1;
        self.evs.clear();
        self.slots.clear();
        self.ends.clear();
        self.order.clear();
        self.triples.clear();
        let (mut messages, mut slice) = (0, log.first[trace]);
        while slice != NONE {
            let Slice { part, from, to, next } = log.slices[slice as usize];
            slice = next;
            let part = &log.parts[part as usize];
            let [_, machines, tasks, events] = &log.maps[part.shard];
            for e in &part.events[from as usize..to as usize] {
                let mut ev = Ev { line: part.base + e.line, task: tasks[e.task as usize], ..*e };
                (ev.machine, ev.event) = (machines[e.machine as usize], events[e.event as usize]);
                messages += (e.send != NONE) as usize + (e.recv != NONE) as usize;
                let s = &mut self.task_slot[ev.task as usize];
                if s.0 != self.tick {
                    *s = (self.tick, self.ends.len() as u32);
                    self.ends.push(0);
                }
                self.ends[s.1 as usize] += 1;
                self.slots.push(s.1);
                self.evs.push(CutEv { ev, shard: part.shard as u32, adjusted: ev.time as i64 });
            }
        }
        // Events by task, in line order.
        let mut sum = 0;
        for e in &mut self.ends {
            (*e, sum) = (sum, sum + *e);
        }
        self.order.resize(n, 0);
        for (i, &s) in self.slots.iter().enumerate() {
            let at = &mut self.ends[s as usize];
            self.order[*at as usize] = i as u32;
            *at += 1;
        }
        let (mut repeated, mut from) = (NONE, 0);
        for &end in &self.ends {
            self.mark += 1;
            for &i in &self.order[from as usize..end as usize] {
                let seen = &mut self.event_seen[self.evs[i as usize].ev.event as usize];
                if *seen == self.mark {
                    repeated = repeated.min(i);
                    break;
                }
                *seen = self.mark;
            }
            from = end;
        }
        if repeated != NONE {
            return Err(("repeated event", self.evs[repeated as usize].ev.line));
        }
        if messages > 0 {
            self.clocks(log, messages)?;
        }
        let (mut least, mut most) = (i64::MAX, i64::MIN);
        for e in &self.evs {
            if e.adjusted < -1000 * T as i64 || e.adjusted > 2000 * T as i64 {
                return Err(("clock out of range", e.ev.line));
            }
            (least, most) = (least.min(e.adjusted), most.max(e.adjusted));
        }
        let (evs, names, first, mut from) = (&self.evs, &mut self.names, segs.len(), 0);
        for &end in &self.ends {
            let task = &mut self.order[from as usize..end as usize];
            from = end;
            if !task.is_sorted_by_key(|&i| evs[i as usize].adjusted) {
                task.sort_by_key(|&i| evs[i as usize].adjusted);
            }
            for pair in task.windows(2) {
                let (a, b) = (&evs[pair[0] as usize], &evs[pair[1] as usize]);
                let triple = (a.ev.task, a.ev.event, b.ev.event);
                match shared {
                    Some(shared) => segs.push(Seg { start: a.adjusted, end: b.adjusted, name: shared.name(names, triple) }),
                    None => self.triples.push(triple),
                }
            }
        }
        segs[first..].sort_by_key(|s| (s.start, s.end));
        Ok(((self.evs[0].ev.time / DAY) as u32, most.wrapping_sub(least) as u64))
    }

    /// Refuses repeated messages and moves the times by the machines' offsets.
    fn clocks(&mut self, log: &Log, messages: usize) -> Result<(), Fault> {
        let mask = (2 * messages).next_power_of_two().max(8) - 1;
        self.found.clear();
        let mut repeated = [NONE; 2];
        for i in 0..self.evs.len() {
            let CutEv { ev, shard, .. } = self.evs[i];
            for (side, &place) in [ev.send, ev.recv].iter().enumerate() {
                if place != NONE {
                    let k = self.find(log, shard, place, mask);
                    let end = &mut self.found[k].ends[side];
                    if *end != NONE {
                        repeated[side] = repeated[side].min(i as u32);
                    } else {
                        *end = i as u32;
                    }
                }
            }
        }
        for (&at, what) in repeated.iter().zip(["repeated send", "repeated receive"]) {
            if at != NONE {
                return Err((what, self.evs[at as usize].ev.line));
            }
        }
        // Machines by first line; the first one is the reference.
        self.machines.clear();
        for e in &self.evs {
            let s = &mut self.machine_slot[e.ev.machine as usize];
            if s.0 != self.tick {
                *s = (self.tick, self.machines.len() as u32);
                self.machines.push(e.ev.machine);
            }
        }
        let slots = &self.machine_slot;
        self.links.clear();
        for m in self.found.iter().filter(|m| !m.ends.contains(&NONE)) {
            let [s, r] = m.ends.map(|i| self.evs[i as usize].ev);
            if s.machine != r.machine {
                let [from, to] = [s, r].map(|e| slots[e.machine as usize].1);
                self.links.push((from, to, r.time as i64 - s.time as i64));
            }
        }
        if self.links.is_empty() {
            return Ok(());
        }
        self.links.sort_unstable();
        self.links.dedup_by_key(|l| (l.0, l.1));
        let (links, machines, offset) = (&self.links, &self.machines, &mut self.offset);
        offset.clear();
        offset.resize(machines.len(), None);
        offset[0] = Some(0);
        self.level.clear();
        self.level.push(0);
        while !self.level.is_empty() {
            self.level.sort_by_key(|&m| log.texts[1].text(machines[m as usize]));
            self.below.clear();
            for &m in &self.level {
                for l in links[links.partition_point(|l| l.0 < m)..].iter().take_while(|l| l.0 == m) {
                    let back = links.binary_search_by_key(&(l.1, m), |l| (l.0, l.1));
                    if let (None, Ok(back)) = (offset[l.1 as usize], back) {
                        let own = (l.2 - links[back].2).div_euclid(2) as i128;
                        offset[l.1 as usize] = Some(offset[m as usize].unwrap() + own);
                        self.below.push(l.1);
                    }
                }
            }
            std::mem::swap(&mut self.level, &mut self.below);
        }
        for e in &mut self.evs {
            let at = e.adjusted as i128 - offset[slots[e.ev.machine as usize].1 as usize].unwrap_or(0);
            e.adjusted = at.clamp(i64::MIN as i128, i64::MAX as i128) as i64; // both are out of range
        }
        Ok(())
    }
}

// ---- refuted relations and graphs ----

#[derive(Clone, Copy)]
struct NameInfo { task: u8, element: u16 }
const NO_ELEMENT: u16 = u16::MAX;

/// Bits of refuted relations. A row per name: before, exclusive, apart.
#[derive(Clone)]
struct Table { rows: Vec<[Bits; 3]>, present: Bits, pipe: [u64; 64], shared: [u64; 64] }

impl Table {
    fn new(names: usize) -> Table {
        Table { rows: vec![[EMPTY; 3]; names], present: EMPTY, pipe: [0; 64], shared: [0; 64] }
    }
    fn join(&mut self, other: &Table) {
        for (a, b) in self.rows.iter_mut().flatten().zip(other.rows.iter().flatten()) {
            or(a, b);
        }
        or(&mut self.present, &other.present);
        for k in 0..64 {
            self.pipe[k] |= other.pipe[k];
            self.shared[k] |= other.shared[k];
        }
    }
    /// The number of refuted relations.
    fn refuted(&self) -> u64 {
        let ones = |t: &[u64]| t.iter().map(|w| w.count_ones() as u64).sum::<u64>();
        let mut n = [0u64; 3];
        for (a, rows) in self.rows.iter().enumerate() {
            for (count, row) in n.iter_mut().zip(rows) {
                *count += ones(row) - bit(row, a) as u64;
            }
        }
        n[0] + n[1] / 2 + n[2] / 2 + ones(&self.pipe) + ones(&self.shared) / 2
    }
}

/// An element in a task; `place` counts the task's elements.
#[derive(Clone, Copy)]
struct Use { task: u8, element: u16, start: i64, end: i64, place: u32 }

/// One thread's room for rows and graphs.
#[derive(Default)]
struct Room {
    by_end: Vec<u16>,
    ended: Vec<Bits>,
    uses: Vec<Use>,
    first_use: Vec<u32>, // per element of the trace: uses are chained
    next_use: Vec<u32>,
    last: Vec<[u32; 64]>,
    blocks: Blocks,
    lengths: Lengths<u64>,
    reach: Vec<Bits>, // names that are reached from each vertex
    edges: Vec<u16>,
    edge_ends: Vec<u32>,
    chain: Vec<u16>,
    slack: Vec<u128>,
}

impl Room {
    fn new() -> Room {
        Room {
            ended: vec![EMPTY; MOST],
            first_use: vec![NONE; MOST],
            last: vec![[0; 64]; 64],
            reach: vec![EMPTY; MOST],
            edge_ends: vec![0; MOST + 1],
            ..Room::default()
        }
    }

    /// Adds what the trace refutes. Two sweeps: the names that ended at or
    /// before each start, and the names that started before each end, each
    /// start being later by the grace.
    fn refute(&mut self, segs: &[Seg], grace: i64, names: &[NameInfo], table: &mut Table) {
        self.by_end.clear();
        self.by_end.extend(0..segs.len() as u16);
        self.by_end.sort_by_key(|&i| segs[i as usize].end);
        let (mut present, mut ended, mut p, mut elements) = (EMPTY, EMPTY, 0, false);
        for (a, s) in segs.iter().enumerate() {
            while p < segs.len() && segs[self.by_end[p] as usize].end <= s.start + grace {
                set(&mut ended, segs[self.by_end[p] as usize].name as usize);
                p += 1;
            }
            self.ended[a] = ended;
            set(&mut present, s.name as usize);
            elements |= names[s.name as usize].element != NO_ELEMENT;
        }
        let (mut started, mut q) = (EMPTY, 0);
        for &a in &self.by_end {
            let s = segs[a as usize];
            while q < segs.len() && segs[q].start + grace < s.end {
                set(&mut started, segs[q].name as usize);
                q += 1;
            }
            let ended = &self.ended[a as usize];
            let [before, exclusive, apart] = &mut table.rows[s.name as usize];
            for k in 0..8 {
                before[k] |= started[k];
                exclusive[k] |= started[k] & !ended[k];
                apart[k] |= present[k];
            }
        }
        or(&mut table.present, &present);
        if elements {
            self.pipes(segs, grace, names, table);
        }
    }

    fn pipes(&mut self, segs: &[Seg], grace: i64, names: &[NameInfo], table: &mut Table) {
        self.uses.clear();
        self.next_use.clear();
        let mut places = [0u32; 64];
        for s in segs {
            let NameInfo { task, element } = names[s.name as usize];
            if element == NO_ELEMENT {
                continue;
            }
            let head = self.first_use[element as usize];
            let mut u = head;
            while u != NONE && self.uses[u as usize].task != task {
                u = self.next_use[u as usize];
            }
            if u != NONE {
                self.uses[u as usize].end = s.end;
                continue;
            }
            self.first_use[element as usize] = self.uses.len() as u32;
            self.next_use.push(head);
            let place = places[task as usize];
            places[task as usize] += 1;
            if place == 0 {
                self.last[task as usize] = [0; 64];
            }
            self.uses.push(Use { task, element, start: s.start, end: s.end, place });
        }
        // last[t][v]: the place in v of the last element of t that v also has.
        for a in &self.uses {
            let t = a.task as usize;
            let mut u = self.first_use[a.element as usize];
            while u != NONE {
                let b = &self.uses[u as usize];
                let v = b.task as usize;
                u = self.next_use[u as usize];
                if t == v {
                    continue;
                }
                table.shared[t] |= 1 << v;
                if b.start + grace < a.end {
                    table.pipe[t] |= 1 << v;
                }
                if b.place < self.last[t][v] {
                    table.pipe[t] |= 1 << v;
                    table.pipe[v] |= 1 << t;
                }
                self.last[t][v] = b.place;
            }
        }
        for a in &self.uses {
            self.first_use[a.element as usize] = NONE;
        }
    }

    /// The longest length.
    fn longest(&mut self, segs: &[Seg], grace: u32, rows: &[[Bits; 3]]) -> u128 {
        if vast(segs, grace) {
            return Lengths::<u128>::default().tails(&mut self.blocks, segs, grace, rows);
        }
        self.lengths.tails(&mut self.blocks, segs, grace, rows) as u128
    }
    /// The first longest chain, into `chain`; gives its length.
    fn chain(&mut self, segs: &[Seg], grace: u32, rows: &[[Bits; 3]]) -> u128 {
        if vast(segs, grace) {
            return Lengths::<u128>::default().chain(&mut self.blocks, segs, grace, rows, &mut self.chain);
        }
        self.lengths.chain(&mut self.blocks, segs, grace, rows, &mut self.chain) as u128
    }
    /// The slack of each vertex, into `slack`; gives the longest length.
    fn slacks(&mut self, segs: &[Seg], grace: u32, rows: &[[Bits; 3]]) -> u128 {
        if vast(segs, grace) {
            return Lengths::<u128>::default().slacks(&mut self.blocks, segs, grace, rows, &mut self.slack);
        }
        self.lengths.slacks(&mut self.blocks, segs, grace, rows, &mut self.slack) as u128
    }

    /// The reduced edges: those of vertex a are `edge_ends[a + 1]` to
    /// `edge_ends[a]` of `edges`.
    fn reduce(&mut self, segs: &[Seg], grace: u32, rows: &[[Bits; 3]]) {
        let n = segs.len();
        self.blocks.fill(segs);
        self.edges.clear();
        self.edge_ends[n] = 0;
        for a in (0..n).rev() {
            let row = &rows[segs[a].name as usize][1];
            let (f, mut reach) = (follow(segs, grace, a), EMPTY);
            for k in f / 64..n.div_ceil(64) {
                // Vertices of the block with an edge that are not reached yet.
                let open: Bits = std::array::from_fn(|w| self.blocks.members[k][w] & !row[w] & !reach[w]);
                let mut list = names_in(&open).fold(0u64, |list, name| {
                    let v = self.blocks.vertex[name] as usize;
                    list | ((v >= f) as u64) << (v % 64)
                });
                while list != 0 {
                    let b = k * 64 + list.trailing_zeros() as usize;
                    list &= list - 1;
                    let name = segs[b].name as usize;
                    if !bit(&reach, name) {
                        self.edges.push(b as u16);
                        set(&mut reach, name);
                        or(&mut reach, &self.reach[b]);
                    }
                }
            }
            self.reach[a] = reach;
            self.edge_ends[a] = self.edges.len() as u32;
        }
    }
}

#[inline(always)]
fn names_in(set: &Bits) -> impl Iterator<Item = usize> + '_ {
    set.iter().enumerate().flat_map(|(w, &word)| {
        let mut rest = word;
        std::iter::from_fn(move || {
            let n = w * 64 + rest.trailing_zeros() as usize;
            (rest != 0).then(|| {
                rest &= rest - 1;
                n
            })
        })
    })
}

/// The first vertex after `a` that starts at or after its end: without grace no
/// earlier one has an edge from it.
#[inline(always)]
fn follow(segs: &[Seg], grace: u32, a: usize) -> usize {
    let (end, rest) = (segs[a].end, &segs[a + 1..]);
    if grace > 0 {
        return a + 1;
    }
    if rest.len() <= 16 {
        return a + 1 + rest.iter().position(|s| s.start >= end).unwrap_or(rest.len());
    }
    a + 1 + rest.partition_point(|s| s.start < end)
}

/// Whether a length may pass u64. Without grace the segments of a chain don't
/// overlap, and it can't.
fn vast(segs: &[Seg], grace: u32) -> bool {
    grace > 0 && segs.iter().map(|s| s.weight() as u128).sum::<u128>() > u64::MAX as u128
}

/// The vertices in blocks of 64. Eight words of a row of exclusive bits then
/// tell which vertices of a block have an edge.
struct Blocks { vertex: [u16; MOST], members: [Bits; 8] }

impl Default for Blocks {
    fn default() -> Blocks {
        Blocks { vertex: [0; MOST], members: [EMPTY; 8] }
    }
}

impl Blocks {
    fn fill(&mut self, segs: &[Seg]) {
        self.members = [EMPTY; 8];
        for (v, s) in segs.iter().enumerate() {
            self.vertex[s.name as usize] = v as u16;
            set(&mut self.members[v / 64], s.name as usize);
        }
    }
    /// The greatest length among the vertices of block k that have an edge.
    /// Where all of a whole block have one, it is known.
    #[inline(always)]
    fn best<W: Weight>(&self, k: usize, row: &Bits, whole: bool, top: W, best: W, length: impl Fn(usize) -> W) -> W {
        let open: Bits = std::array::from_fn(|w| self.members[k][w] & !row[w]);
        if whole && open == self.members[k] {
            return top;
        }
        names_in(&open).fold(best, |best, n| best.max(length(self.vertex[n] as usize)))
    }
}

trait Weight: Copy + Default + Ord + From<u64> + Into<u128> + Add<Output = Self> + Sub<Output = Self> {}
impl Weight for u64 {}
impl Weight for u128 {}

const SHORT: usize = 24; // up to so many vertices plain loops are faster than blocks

/// The longest lengths of chains up to each vertex, and from it on.
struct Lengths<W> { forward: Vec<W>, tail: Vec<W> }

impl<W: Weight> Default for Lengths<W> {
    fn default() -> Lengths<W> {
        Lengths { forward: vec![W::default(); MOST], tail: vec![W::default(); MOST] }
    }
}

impl<W: Weight> Lengths<W> {
    /// Fills `tail`; gives the longest length.
    fn tails(&mut self, blocks: &mut Blocks, segs: &[Seg], grace: u32, rows: &[[Bits; 3]]) -> W {
        let short = segs.len() <= SHORT;
        if !short {
            blocks.fill(segs);
        }
        let mut top = [W::default(); 8];
        for a in (0..segs.len()).rev() {
            let row = &rows[segs[a].name as usize][1];
            let (f, mut best) = (follow(segs, grace, a), W::default());
            if short {
                for b in (f..segs.len()).filter(|&b| !bit(row, segs[b].name as usize)) {
                    best = best.max(self.tail[b]);
                }
            }
            for k in f / 64..segs.len().div_ceil(64) {
                if top[k] > best && !short {
                    best = blocks.best(k, row, f <= 64 * k, top[k], best, |v| if v >= f { self.tail[v] } else { W::default() });
                }
            }
            self.tail[a] = best + segs[a].weight().into();
            top[a / 64] = top[a / 64].max(self.tail[a]);
        }
        top.iter().copied().max().unwrap()
    }

    fn chain(&mut self, blocks: &mut Blocks, segs: &[Seg], grace: u32, rows: &[[Bits; 3]], chain: &mut Vec<u16>) -> W {
        let length = self.tails(blocks, segs, grace, rows);
        chain.clear();
        let (mut left, mut v) = (length, 0);
        while left > W::default() {
            let row = chain.last().map_or(&EMPTY, |&a| &rows[segs[a as usize].name as usize][1]);
            while self.tail[v] != left || bit(row, segs[v].name as usize) {
                v += 1;
            }
            chain.push(v as u16);
            left = left - segs[v].weight().into();
            v = follow(segs, grace, v);
        }
        length
    }

    fn slacks(&mut self, blocks: &mut Blocks, segs: &[Seg], grace: u32, rows: &[[Bits; 3]], slack: &mut Vec<u128>) -> W {
        let length = self.tails(blocks, segs, grace, rows);
        let short = segs.len() <= SHORT;
        let mut top = [W::default(); 8];
        slack.clear();
        for b in 0..segs.len() {
            let row = &rows[segs[b].name as usize][1];
            let mut best = W::default();
            if short {
                for a in (0..b).filter(|&a| !bit(row, segs[a].name as usize)) {
                    best = best.max(self.forward[a]);
                }
            }
            for k in (0..=b / 64).rev() {
                if top[k] > best && !short {
                    best = blocks.best(k, row, k < b / 64, top[k], best, |v| if v < b { self.forward[v] } else { W::default() });
                }
            }
            slack.push((length - (best + self.tail[b])).into());
            self.forward[b] = best + segs[b].weight().into();
            top[b / 64] = top[b / 64].max(self.forward[b]);
        }
        length
    }
}

// ---- commands ----

struct Day { traces: Vec<u32>, table: Table }

/// One thread's share of a report: durations, and count and sum on the chains of
/// the other and of the slow traces, by name.
struct Tally { durations: Vec<Vec<u64>>, on_path: [Vec<(u64, u128)>; 2], latencies: Vec<u64>, critical: u128 }

fn on_path(out: &mut Vec<u8>, tallies: &[Tally], slow: bool, name: usize) {
    let (count, sum) = tallies.iter().map(|t| t.on_path[slow as usize][name]).fold((0, 0), |a, b| (a.0 + b.0, a.1 + b.1));
    field(out, count);
    field(out, sum);
}

/// Count, sum, median and greatest as four fields.
fn figures(out: &mut Vec<u8>, list: &mut [u64]) {
    let sum: u128 = list.iter().map(|&n| n as u128).sum();
    let most = list.iter().copied().max().unwrap_or(0);
    let median = if list.is_empty() { 0 } else { *list.select_nth_unstable((list.len() - 1) / 2).1 };
    out.extend_from_slice(format!("\t{}\t{sum}\t{median}\t{most}", list.len()).as_bytes());
}

/// Blocks of text that wait for their turn, and used buffers.
#[derive(Default)]
struct Queue { next: usize, ready: BTreeMap<usize, Vec<u8>>, spare: Vec<Vec<u8>>, writing: bool, failed: bool }

struct Session<'a> {
    log: &'a Log,
    workers: u64,
    threads: usize,
    traces: Vec<Trace>,
    segs: Vec<Vec<Seg>>, // per block
    faults: Vec<(u32, Fault)>,
    names: Vec<Vec<u8>>, // NAME as three fields
    name_order: Vec<u16>,
    info: Vec<NameInfo>,
    tasks: Vec<u32>,
    task_order: Vec<u8>,
    days: BTreeMap<u32, Day>,
    merged: Table,
    stale: bool,
    every: u32,
    grace: u32,
    asked: Vec<u8>, // NAME of `whatif`
    rooms: Mutex<Vec<Room>>, // not in use
    out: Vec<u8>,
    clock: Clock,
}

impl Session<'_> {
    /// Lends a room to the work.
    fn with_room<A>(&self, work: impl FnOnce(&mut Room) -> A) -> A {
        let spare = self.rooms.lock().unwrap().pop();
        let mut room = spare.unwrap_or_else(Room::new);
        let answer = work(&mut room);
        self.rooms.lock().unwrap().push(room);
        answer
    }

    fn segs(&self, t: u32) -> &[Seg] {
        let t = &self.traces[t as usize];
        &self.segs[t.block as usize][t.first as usize..(t.first + t.count) as usize]
    }

    /// Blocks of neighbouring traces with about `grain` segments each.
    fn blocks<'l>(&self, list: &'l [u32], grain: u32) -> Vec<&'l [u32]> {
        let mut sum = 0;
        let same = |a: &u32, _: &u32| {
            sum += self.traces[*a as usize].count + 1;
            let go = sum < grain;
            if !go {
                sum = 0;
            }
            go
        };
        list.chunk_by(same).collect()
    }

    fn flush(&mut self) -> Result<(), Stop> {
        io::stdout().write_all(&self.out).map_err(|_| Stop::Write)?;
        self.out.clear();
        Ok(())
    }

    fn add(&mut self, from: usize, to: usize) -> Result<(), Stop> {
        let taken: Vec<u32> = (from as u32..to as u32).filter(|&t| self.traces[t as usize].count != REFUSED).collect();
        for &t in &taken {
            self.traces[t as usize].grace = self.grace;
        }
        let day = |t: u32| self.traces[t as usize].day;
        let mut fresh: BTreeMap<u32, Vec<u32>> = BTreeMap::new();
        for run in taken.chunk_by(|&a, &b| day(a) == day(b)) {
            fresh.entry(day(run[0])).or_default().extend_from_slice(run);
        }
        let count = self.days.len() + fresh.keys().filter(|d| !self.days.contains_key(d)).count();
        if count > 64 {
            return Err(Stop::Limit(count as u64, "days"));
        }
        let a = self.faults.partition_point(|f| (f.0 as usize) < from);
        for &(t, (why, number)) in self.faults[a..].iter().take_while(|f| (f.0 as usize) < to) {
            let request = self.log.texts[0].text(self.log.req[t as usize]);
            texts(&mut self.out, &[b"refused\t", request, b"\t", why.as_bytes(), b"\t"]);
            num(&mut self.out, number as u64);
            self.out.push(b'\n');
        }
        // A table per day of the batch; large batches are shared among threads.
        let place: Vec<u32> = fresh.keys().copied().collect();
        let blocks = self.blocks(&taken, 8192);
        let next = AtomicUsize::new(0);
        let me = &*self;
        let work = || {
            let mut tables: Vec<Option<Table>> = vec![None; place.len()];
            me.with_room(|room| {
                while let Some(block) = blocks.get(next.fetch_add(1, Relaxed)) {
                    for &t in *block {
                        let Trace { day, grace, .. } = me.traces[t as usize];
                        let p = place.binary_search(&day).unwrap();
                        let table = tables[p].get_or_insert_with(|| Table::new(me.names.len()));
                        room.refute(me.segs(t), grace as i64, &me.info, table);
                    }
                }
            });
            tables
        };
        let mut tables: Vec<Option<Table>> = vec![None; place.len()];
        for (all, one) in spread(self.threads.min(blocks.len()), &work).into_iter().flat_map(|list| (0..).zip(list)) {
            match (&mut tables[all], one) {
                (_, None) => {}
                (Some(all), Some(one)) => all.join(&one),
                (all, one) => *all = one,
            }
        }
        for ((day, list), table) in fresh.into_iter().zip(tables) {
            let table = table.unwrap();
            if self.every > 0 {
                self.watch(day, 0, self.workers, list.len() as u64, table.refuted());
            }
            if !self.stale {
                self.merged.join(&table);
            }
            if let Some(d) = self.days.get_mut(&day) {
                d.table.join(&table);
                d.traces.extend(list);
            } else {
                self.days.insert(day, Day { traces: list, table });
            }
        }
        Ok(())
    }

    /// Lines of a block of s workers from w. The final count keeps every bound.
    fn watch(&mut self, day: u32, w: u64, s: u64, n: u64, refuted: u64) {
        if s > 1 {
            let (h, m) = (s / 2, n * (s / 2) / s);
            self.watch(day, w, h, m, refuted);
            return self.watch(day, w + h, s - h, n - m, refuted);
        }
        for m in (self.every as u64..=n).step_by(self.every as usize) {
            self.line(b"watch", &[day as u64, w, m, refuted]);
        }
    }

    fn line(&mut self, word: &[u8], numbers: &[u64]) {
        self.out.extend_from_slice(word);
        numbers.iter().for_each(|&n| field(&mut self.out, n));
        self.out.push(b'\n');
    }

    fn drop_days(&mut self, word: &[u8], n: u32, days: &[u32]) {
        let dropped = days.iter().filter_map(|d| self.days.remove(d)).map(|d| d.traces.len() as u64).sum();
        self.stale |= dropped > 0;
        self.line(word, &[n as u64, dropped]);
    }

    fn command(&mut self, c: Command) -> Result<(), Stop> {
        match c {
            Command::Add => {}
            Command::Watch(e) => self.every = e,
            Command::Grace(micros) => self.grace = 1000 * micros,
            Command::Drop(d) => self.drop_days(b"drop", d, &[d]),
            Command::Keep(k) => {
                let old: Vec<u32> = self.days.keys().rev().skip(k as usize).copied().collect();
                self.drop_days(b"keep", k, &old);
            }
            _ => {
                if self.stale {
                    self.merged = Table::new(self.names.len());
                    for d in self.days.values() {
                        self.merged.join(&d.table);
                    }
                    self.stale = false;
                }
                self.clock.lap("rows");
                self.view(c)?;
                self.clock.lap("view");
            }
        }
        if self.out.len() > 1 << 20 { self.flush() } else { Ok(()) }
    }

    fn view(&mut self, c: Command) -> Result<(), Stop> {
        let kept: Vec<u32> = self.days.values().flat_map(|d| d.traces.iter().copied()).collect();
        let word: &[u8] = match c {
            Command::Model => return self.model(kept.len(), true),
            Command::Report => return self.report(&kept, true),
            Command::Summary => return self.model(kept.len(), false).and_then(|()| self.report(&kept, false)),
            Command::WhatIf(num, den) => return self.forecast(&kept, num, den),
            Command::Tail => return self.tail(&kept),
            Command::Paths => b"paths",
            Command::Slack => b"slack",
            _ => b"graph",
        };
        texts(&mut self.out, &[word, b"\ttraces="]);
        num(&mut self.out, kept.len() as u64);
        self.out.push(b'\n');
        let blocks = self.blocks(&kept, 4096);
        self.ordered(blocks.len(), true, |me, k, out| {
            me.with_room(|room| blocks[k].iter().for_each(|&t| me.print_trace(c, t, room, out)))
        })
    }

    /// Prints blocks of text in their order, made by many threads where it pays.
    /// A thread that ends a block writes all that are next, or leaves its own to
    /// the thread that is writing.
    fn ordered<F: Fn(&Self, usize, &mut Vec<u8>) + Sync>(&mut self, count: usize, pays: bool, print: F) -> Result<(), Stop> {
        let threads = if pays { self.threads.min(count) } else { 1 };
        if threads <= 1 {
            let mut out = std::mem::take(&mut self.out);
            for k in 0..count {
                print(self, k, &mut out);
                if out.len() > 1 << 18 {
                    io::stdout().write_all(&out).map_err(|_| Stop::Write)?;
                    out.clear();
                }
            }
            self.out = out;
            return Ok(());
        }
        self.flush()?;
        let (next, queue, waiting) = (AtomicUsize::new(0), Mutex::new(Queue::default()), Condvar::new());
        let me = &*self;
        spread(threads, &|| {
            let mut out = Vec::new();
            loop {
                let k = next.fetch_add(1, Relaxed);
                if k >= count {
                    return;
                }
                print(me, k, &mut out);
                let full = |q: &mut Queue| q.writing && q.ready.len() >= 8 * threads;
                let mut q = waiting.wait_while(queue.lock().unwrap(), full).unwrap();
                q.ready.insert(k, std::mem::take(&mut out));
                while !q.writing {
                    let (first, failed) = (q.next, q.failed);
                    let Some(mut text) = q.ready.remove(&first) else { break };
                    (q.next, q.writing) = (first + 1, true);
                    drop(q);
                    let failed = failed || io::stdout().write_all(&text).is_err();
                    text.clear();
                    q = queue.lock().unwrap();
                    (q.writing, q.failed) = (false, failed);
                    q.spare.push(text);
                    waiting.notify_all();
                }
                out = q.spare.pop().unwrap_or_default();
            }
        });
        if queue.into_inner().unwrap().failed { Err(Stop::Write) } else { Ok(()) }
    }

    fn print_trace(&self, c: Command, t: u32, room: &mut Room, out: &mut Vec<u8>) {
        let segs = self.segs(t);
        let Trace { day, latency, grace, .. } = self.traces[t as usize];
        let rows = &self.merged.rows;
        let head = |out: &mut Vec<u8>, word: &[u8], rest: &[u128]| {
            texts(out, &[word, self.log.texts[0].text(self.log.req[t as usize])]);
            [day as u128, latency as u128].iter().chain(rest).for_each(|&n| field(out, n));
            out.push(b'\n');
        };
        let name = |s: &Seg| &self.names[s.name as usize][..];
        match c {
            Command::Paths => {
                let length = room.chain(segs, grace, rows);
                head(out, b"path\t", &[length, room.chain.len() as u128]);
                for &v in &room.chain {
                    let s = &segs[v as usize];
                    texts(out, &[b"step\t", name(s)]);
                    field(out, s.weight());
                    out.push(b'\n');
                }
            }
            Command::Slack => {
                let length = room.slacks(segs, grace, rows);
                head(out, b"trace\t", &[length]);
                for (s, &slack) in segs.iter().zip(&room.slack) {
                    texts(out, &[b"segment\t", name(s)]);
                    field(out, s.weight());
                    field(out, slack);
                    out.push(b'\n');
                }
            }
            _ => {
                room.reduce(segs, grace, rows);
                head(out, b"trace\t", &[segs.len() as u128, room.edges.len() as u128]);
                for (v, s) in segs.iter().enumerate() {
                    out.extend_from_slice(b"vertex");
                    field(out, v as u64);
                    texts(out, &[b"\t", name(s)]);
                    field(out, s.weight());
                    out.push(b'\n');
                }
                for v in 0..segs.len() {
                    for &b in &room.edges[room.edge_ends[v + 1] as usize..room.edge_ends[v] as usize] {
                        out.extend_from_slice(b"edge");
                        field(out, v as u64);
                        field(out, b as u64);
                        out.push(b'\n');
                    }
                }
            }
        }
    }

    fn present(&self) -> Vec<u16> {
        self.name_order.iter().copied().filter(|&n| bit(&self.merged.present, n as usize)).collect()
    }

    fn model(&mut self, traces: usize, whole: bool) -> Result<(), Stop> {
        let m = &self.merged;
        let names = self.present();
        let tasks = names.iter().fold(0u64, |t, &n| t | 1 << self.info[n as usize].task).count_ones();
        let (mut hb, mut mx, mut pipe) = (0u64, Vec::new(), Vec::new());
        for (i, &a) in names.iter().enumerate() {
            let [before, exclusive, apart] = &m.rows[a as usize];
            let mut others = m.present;
            others[a as usize / 64] &= !(1 << (a % 64));
            hb += (0..8).map(|w| (apart[w] & !before[w] & others[w]).count_ones() as u64).sum::<u64>();
            // Together, before refuted this way, exclusive survives.
            let open: Bits = std::array::from_fn(|w| apart[w] & before[w] & !exclusive[w] & others[w]);
            if open != EMPTY {
                let later = names[i + 1..].iter();
                mx.extend(later.filter(|&&b| bit(&open, b as usize) && bit(&m.rows[b as usize][0], a as usize)).map(|&b| (a, b)));
            }
        }
        for &t in &self.task_order {
            let open = m.shared[t as usize] & !m.pipe[t as usize];
            pipe.extend(self.task_order.iter().filter(|&&u| open >> u & 1 == 1).map(|&u| (t, u)));
        }
        let (days, segments, mxs, pipes) = (self.days.len(), names.len(), mx.len(), pipe.len());
        let head = format!("model\ttraces={traces}\tdays={days}\tsegments={segments}\ttasks={tasks}\thb={hb}\tmx={mxs}\tpipe={pipes}\n");
        self.out.extend_from_slice(head.as_bytes());
        if !whole {
            return Ok(());
        }
        self.ordered(names.len().div_ceil(8), hb > 10_000, |me, k, out| {
            for &a in &names[8 * k..names.len().min(8 * k + 8)] {
                let [before, _, apart] = &me.merged.rows[a as usize];
                let first = [b"hb\t", &me.names[a as usize][..], b"\t"].concat();
                for &b in names.iter().filter(|&&b| a != b && bit(apart, b as usize) && !bit(before, b as usize)) {
                    texts(out, &[&first, &me.names[b as usize], b"\n"]);
                }
            }
        })?;
        for (a, b) in mx {
            texts(&mut self.out, &[b"mx\t", &self.names[a as usize], b"\t", &self.names[b as usize], b"\n"]);
        }
        for (t, u) in pipe {
            let [t, u] = [t, u].map(|t| self.log.texts[2].text(self.tasks[t as usize]));
            texts(&mut self.out, &[b"pipe\t", t, b"\t", u, b"\n"]);
        }
        Ok(())
    }

    fn tallies(&self, kept: &[u32], durations: bool) -> Vec<Tally> {
        let blocks = self.blocks(kept, 4096);
        let next = AtomicUsize::new(0);
        let count = self.names.len();
        let share = |room: &mut Room| {
            let on_path = [0, 1].map(|_| vec![(0, 0); count]);
            let mut tally = Tally { durations: vec![Vec::new(); count], on_path, latencies: Vec::new(), critical: 0 };
            while let Some(block) = blocks.get(next.fetch_add(1, Relaxed)) {
                for &t in *block {
                    let (segs, Trace { latency, grace, slow, .. }) = (self.segs(t), self.traces[t as usize]);
                    tally.critical += room.chain(segs, grace, &self.merged.rows);
                    if durations {
                        tally.latencies.push(latency);
                        segs.iter().for_each(|s| tally.durations[s.name as usize].push(s.weight()));
                    }
                    for &v in &room.chain {
                        let s = &segs[v as usize];
                        let on = &mut tally.on_path[slow as usize][s.name as usize];
                        *on = (on.0 + 1, on.1 + s.weight() as u128);
                    }
                }
            }
            tally
        };
        spread(self.threads.min(blocks.len()), &|| self.with_room(share))
    }

    fn report(&mut self, kept: &[u32], whole: bool) -> Result<(), Stop> {
        let tallies = self.tallies(kept, true);
        let critical: u128 = tallies.iter().map(|t| t.critical).sum();
        self.out.extend_from_slice(format!("report\ttraces={}\tcritical={critical}\nlatency", kept.len()).as_bytes());
        figures(&mut self.out, &mut tallies.iter().flat_map(|t| t.latencies.iter().copied()).collect::<Vec<_>>());
        self.out.push(b'\n');
        let names = if whole { self.present() } else { Vec::new() };
        self.ordered(names.len(), kept.len() > 1000, |me, k, out| {
            let n = names[k] as usize;
            let mut list = Vec::new();
            tallies.iter().for_each(|t| list.extend_from_slice(&t.durations[n]));
            texts(out, &[b"segment\t", &me.names[n]]);
            figures(out, &mut list);
            on_path(out, &tallies, false, n);
            out.push(b'\n');
        })
    }

    fn tail(&mut self, kept: &[u32]) -> Result<(), Stop> {
        let rest = kept.len() - (5 * kept.len()).div_ceil(100);
        let mut order: Vec<(u64, u32)> = (0..).zip(kept).map(|(p, &t)| (self.traces[t as usize].latency, p)).collect();
        if rest < order.len() {
            order.select_nth_unstable(rest);
        }
        let floor = order.get(rest).map_or(0, |o| o.0);
        for o in &order[rest..] {
            self.traces[kept[o.1 as usize] as usize].slow = true;
        }
        let tallies = self.tallies(kept, false);
        let head = format!("tail\ttraces={}\tslow={}\tfloor={floor}\n", kept.len(), kept.len() - rest);
        self.out.extend_from_slice(head.as_bytes());
        for n in self.present() {
            texts(&mut self.out, &[b"segment\t", &self.names[n as usize]]);
            on_path(&mut self.out, &tallies, true, n as usize);
            on_path(&mut self.out, &tallies, false, n as usize);
            self.out.push(b'\n');
        }
        Ok(())
    }

    fn forecast(&mut self, kept: &[u32], num: u64, den: u64) -> Result<(), Stop> {
        let blocks = self.blocks(kept, 4096);
        let next = AtomicUsize::new(0);
        let name = self.names.iter().position(|n| *n == self.asked);
        let (me, rows) = (&*self, &self.merged.rows);
        let share = |room: &mut Room| {
            let mut done = Vec::new();
            loop {
                let k = next.fetch_add(1, Relaxed);
                let Some(&block) = blocks.get(k) else { return done };
                let (mut sums, mut out) = ([0u128; 2], Vec::new());
                for &t in block {
                    let (segs, Trace { day, grace, .. }) = (me.segs(t), me.traces[t as usize]);
                    let before = room.longest(segs, grace, rows);
                    let mut after = before;
                    if let Some(v) = segs.iter().position(|s| Some(s.name as usize) == name) {
                        let mut changed = segs.to_vec();
                        let weight = changed[v].weight() as u128 * num as u128 / den as u128;
                        changed[v].end = changed[v].start.wrapping_add(weight as i64);
                        after = room.longest(&changed, grace, rows);
                    }
                    sums = [sums[0] + before, sums[1] + after];
                    texts(&mut out, &[b"forecast\t", me.log.texts[0].text(me.log.req[t as usize])]);
                    [day as u128, before, after].iter().for_each(|&n| field(&mut out, n));
                    out.push(b'\n');
                }
                done.push((k, sums, out));
            }
        };
        let mut done = spread(self.threads.min(blocks.len()), &|| me.with_room(share)).concat();
        done.sort_unstable_by_key(|d| d.0);
        let [before, after] = done.iter().fold([0; 2], |[b, a], d| [b + d.1[0], a + d.1[1]]);
        let head = format!("whatif\ttraces={}\tbefore={before}\tafter={after}\n", kept.len());
        self.out.extend_from_slice(head.as_bytes());
        self.ordered(done.len(), false, |_, k, out| out.extend_from_slice(&done[k].2))
    }
}

// ---- threads and run ----

/// Runs the work on so many threads, this one among them and first in the list.
fn spread<A: Send, F: Fn() -> A + Sync>(threads: usize, work: &F) -> Vec<A> {
    thread::scope(|s| {
        let others: Vec<_> = (1..threads).map(|_| s.spawn(work)).collect();
        let mut all = vec![work()];
        all.extend(others.into_iter().map(|h| h.join().unwrap()));
        all
    })
}

struct Clock(Option<Instant>);
impl Clock {
    fn lap(&mut self, what: &str) {
        if let Some(t) = &mut self.0 {
            eprintln!("{what:8} {:9.3} ms", t.elapsed().as_secs_f64() * 1e3);
            *t = Instant::now();
        }
    }
}

/// Reads and scans all pieces; their parts come back in order.
fn scan_all(sources: &[Source], pieces: &[Piece], threads: usize) -> Result<(Vec<Part>, Vec<Shard>), Stop> {
    let (next, ids) = (AtomicUsize::new(0), AtomicUsize::new(0));
    let mut done = spread(threads.min(pieces.len()), &|| {
        let (mut shard, id) = (Shard::default(), ids.fetch_add(1, Relaxed));
        let (mut buf, mut parts) = (Vec::new(), Vec::new());
        loop {
            let k = next.fetch_add(1, Relaxed);
            let Some(piece) = pieces.get(k) else { return (id, shard, Ok(parts)) };
            let mut part = Part { piece: k, shard: id, ..Part::default() };
            match (bring(sources, piece, &mut buf), piece) {
                (Ok(range), _) => shard.scan(&buf, range, &mut part),
                (_, Piece::Lines { file, .. }) => return (id, shard, Err(Stop::File(file + 1))),
                _ => unreachable!(),
            }
            parts.push(part);
        }
    });
    done.sort_by_key(|d| d.0);
    let (mut parts, mut shards) = (Vec::new(), Vec::new());
    for (_, shard, list) in done {
        shards.push(shard);
        parts.extend(list?);
    }
    parts.sort_by_key(|p| p.piece);
    let mut base = 1;
    for p in &mut parts {
        p.base = base;
        base += p.lines;
        if let Some((line, why)) = p.bad {
            return Err(Stop::Bad(p.base + line, why));
        }
    }
    Ok((parts, shards))
}

type Cuts = (Vec<Vec<Seg>>, Vec<Trace>, Vec<(u32, Fault)>);

/// Cuts and names all traces; None where a limit is passed.
fn cut_all(log: &Log, threads: usize, shared: &Shared) -> Option<Cuts> {
    let count = log.before.len() - 1;
    let (mut blocks, mut from) = (Vec::new(), 0);
    for t in 0..count {
        if log.before[t + 1] - log.before[from] >= 4096 || t + 1 == count {
            blocks.push((from, t + 1));
            from = t + 1;
        }
    }
    let next = AtomicUsize::new(0);
    let lists = spread(threads.min(blocks.len()), &|| {
        let (mut cutter, mut all) = (Cutter::new(log), Vec::new());
        loop {
            let k = next.fetch_add(1, Relaxed);
            let Some(&(a, b)) = blocks.get(k).filter(|_| !shared.passed.load(Relaxed)) else { return all };
            let (mut segs, mut traces, mut faults) = (Vec::new(), Vec::with_capacity(b - a), Vec::new());
            segs.reserve((log.before[b] - log.before[a]) as usize);
            for t in a..b {
                let first = segs.len();
                let mut trace = Trace { block: k as u32, first: first as u32, count: REFUSED, ..Trace::default() };
                match cutter.cut(log, t, Some(shared), &mut segs) {
                    Ok((day, latency)) => trace = Trace { day, latency, count: (segs.len() - first) as u32, ..trace },
                    Err(f) => faults.push((t as u32, f)),
                }
                traces.push(trace);
            }
            segs.shrink_to_fit();
            all.push((k, segs, traces, faults));
        }
    });
    if shared.passed.load(Relaxed) {
        return None;
    }
    let mut list: Vec<_> = lists.into_iter().flatten().collect();
    list.sort_by_key(|c| c.0);
    let mut all: Cuts = (Vec::new(), Vec::with_capacity(count), Vec::new());
    for (_, segs, traces, faults) in list {
        all.0.push(segs);
        all.1.extend(traces);
        all.2.extend(faults);
    }
    Some(all)
}

/// Counts in order, up to the first trace that passes a limit.
fn first_limit(log: &Log) -> (usize, Stop) {
    let mut cutter = Cutter::new(log);
    let (mut names, mut tasks) = (HashSet::new(), HashSet::new());
    for t in 0..log.before.len() - 1 {
        if cutter.cut(log, t, None, &mut Vec::new()).is_ok() {
            names.extend(cutter.triples.iter().copied());
            tasks.extend(cutter.triples.iter().map(|t| t.0));
        }
        if names.len() > MOST {
            return (t, Stop::Limit(names.len() as u64, "segment names"));
        }
        if tasks.len() > 64 {
            return (t, Stop::Limit(tasks.len() as u64, "tasks"));
        }
    }
    unreachable!()
}

/// Cuts and names the traces up to the first `add` that passes a limit; the
/// steps end there.
fn cut_steps(log: &mut Log, steps: &mut Vec<Step>, threads: usize) -> (Catalogue, Cuts) {
    let shared = Shared::default();
    if let Some(cuts) = cut_all(log, threads, &shared) {
        return (shared.catalogue.into_inner().unwrap(), cuts);
    }
    let (trace, stop) = first_limit(log);
    let at = steps.iter().position(|s| matches!(s, Step::Add(from, to) if (*from..*to).contains(&trace))).unwrap();
    if let Step::Add(from, _) = steps[at] {
        log.before.truncate(from + 1);
    }
    steps.truncate(at);
    steps.push(Step::End(stop));
    cut_steps(log, steps, threads)
}

fn run() -> Result<(), Stop> {
    let mut clock = Clock(std::env::var_os("BASELINE_TIMES").map(|_| Instant::now()));
    let words: Vec<String> = std::env::args_os().skip(1).map(|w| w.into_string().unwrap_or_default()).collect();
    let (mut words, mut workers) = (&words[..], 4);
    if words.first().is_some_and(|w| w == "--workers") {
        workers = words.get(1).and_then(|n| plain(n, 1, 64)).ok_or(Stop::Usage)?;
        words = &words[2..];
    }
    let (word, mut rest) = words.split_first().ok_or(Stop::Usage)?;
    let mut asked = Vec::new();
    let view = match word.as_str() {
        "model" => Some(Command::Model),
        "paths" => Some(Command::Paths),
        "slack" => Some(Command::Slack),
        "report" => Some(Command::Report),
        "graph" => Some(Command::Graph),
        "drill" => Some(Command::Summary),
        "tail" => Some(Command::Tail),
        "whatif" if rest.len() > 5 && rest[..3].iter().all(|w| !w.is_empty()) => {
            let den = plain(&rest[4], 1, 1_000_000).ok_or(Stop::Usage)?;
            let num = plain(&rest[3], 0, den).ok_or(Stop::Usage)?;
            asked = rest[..3].join("\t").into_bytes();
            rest = &rest[5..];
            Some(Command::WhatIf(num, den))
        }
        "session" => None,
        _ => return Err(Stop::Usage),
    };
    let tail: Vec<Command> = view.into_iter().flat_map(|v| [Command::Add, v]).collect();
    let (mut pieces, mut sources) = (Vec::new(), Vec::new());
    if word == "drill" {
        let [number, traces] = rest else { return Err(Stop::Usage) };
        let mut x = plain(number, 0, 2_147_483_647).ok_or(Stop::Usage)?;
        let traces = plain(traces, 1, 20_000).ok_or(Stop::Usage)? as u32;
        for from in (0..traces).step_by(200) {
            let to = (from + 200).min(traces);
            pieces.push(Piece::Drill { x, from, to });
            (0..5 * (to - from)).for_each(|_| x = (x * 1103515245 + 12345) % 2147483648);
        }
    } else {
        if rest.is_empty() || rest.iter().any(|f| f.is_empty()) {
            return Err(Stop::Usage);
        }
        sources = open_all(rest)?;
        for (file, s) in sources.iter().enumerate() {
            let starts = (0..s.len()).step_by(PIECE as usize);
            pieces.extend(starts.map(|from| Piece::Lines { file, from, to: (from + PIECE).min(s.len()) }));
        }
    }
    let threads = thread::available_parallelism().map_or(1, |n| n.get()).min(workers as usize);
    let (parts, shards) = scan_all(&sources, &pieces, threads)?;
    clock.lap("scan");
    let (mut log, mut steps) = gather(parts, shards, &tail);
    clock.lap("gather");
    let (cat, (segs, traces, faults)) = cut_steps(&mut log, &mut steps, threads);
    (log.parts, log.slices, log.messages) = Default::default();
    let [_, _, tasks, events] = &log.texts;
    let join = |&((t, a, b), _): &(Triple, u8)| [tasks.text(t), events.text(a), events.text(b)].join(&b'\t');
    let names: Vec<Vec<u8>> = cat.names.iter().map(join).collect();
    let mut elements: HashMap<&[u8], u16> = HashMap::new();
    let info = cat.names.iter().map(|&((_, start, _), task)| {
        let text = events.text(start);
        let element = &text[text.iter().position(|&c| c == b'@').map_or(text.len(), |p| p + 1)..];
        let next = elements.len() as u16;
        NameInfo { task, element: if element.is_empty() { NO_ELEMENT } else { *elements.entry(element).or_insert(next) } }
    });
    let info = info.collect();
    // A tab is below every byte of a text, so the joined fields order as the triples.
    let mut name_order: Vec<u16> = (0..names.len() as u16).collect();
    name_order.sort_by_key(|&n| &names[n as usize]);
    let mut task_order: Vec<u8> = (0..cat.tasks.len() as u8).collect();
    task_order.sort_by_key(|&t| tasks.text(cat.tasks[t as usize]));
    clock.lap("cut");
    let (log, merged, tasks) = (&log, Table::new(names.len()), cat.tasks);
    let (days, rooms, out, stale, every, grace) = (BTreeMap::new(), Mutex::new(Vec::new()), Vec::new(), false, 0, 0);
    let mut session = Session {
        log, workers, threads, traces, segs, faults, names, name_order, info, tasks, task_order, days, merged, stale, every,
        grace, asked, rooms, out, clock,
    };
    let answer = steps.into_iter().try_for_each(|step| match step {
        Step::Add(a, b) => session.add(a, b),
        Step::Do(c) => session.command(c),
        Step::End(stop) => Err(stop),
    });
    if !matches!(answer, Err(Stop::Write)) {
        session.flush()?;
        io::stdout().flush().map_err(|_| Stop::Write)?;
    }
    session.clock.lap("end");
    if answer.is_ok() {
        std::process::exit(0); // no memory is given back one by one
    }
    answer
}

fn main() {
    let (status, text) = match run() {
        Ok(()) => return,
        Err(Stop::Usage) => (2, "usage: mystery [--workers N] COMMAND FILE...".to_string()),
        Err(Stop::Bad(line, why)) => (3, format!("line {line}: {why}")),
        Err(Stop::File(k)) => (4, format!("file {k}: read failed")),
        Err(Stop::Write) => (5, "write failed".to_string()),
        Err(Stop::Limit(n, what)) => (6, format!("limit: {n} {what}")),
        Err(Stop::Size) => (6, format!("limit: input over {LIMIT} bytes")),
    };
    let _ = writeln!(io::stderr(), "{text}");
    std::process::exit(status);
}
