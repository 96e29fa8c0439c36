//! Requests with times on one level, in plain Rust: it reads what `apf simulate` reads, in pieces, and prints what that prints. The rules are those of
//! docs/FORMATS.md. `bench/simulate` compiles it, and compares what it prints.
//!
//! usage: simulate CONFIG TRACE|- PATIENCE
//!
//! Of a fault it says no more than where it is.

use std::cmp::Reverse;
use std::collections::hash_map::Entry;
use std::collections::{BTreeMap, BinaryHeap, HashMap, VecDeque};
use std::fs::File;
use std::io::{self, BufRead, BufReader, BufWriter, Read, Write};
use std::rc::Rc;
use std::{env, fmt, process, str};

/// The most requests that are there at once, and that have yet to come.
const MOST_THERE: usize = 10_000;
const WINDOW: usize = 131_072;
const MOST_FLOWS: usize = 100_000;
/// The most waits of a flow that are kept as they are.
const MOST_EXACT: usize = 10_000;
const BYTES_OF_LINE: usize = 65_536;
const BYTES_OF_CONFIG: u64 = 65_536;
const MOST_PATIENCE: u128 = 1_000_000_000;
/// The most names whose hashes are kept.
const MOST_NAMES: usize = 4_096;

// JSON

const DEPTH: usize = 127;

/// A value of JSON. A number is whole if it is written so and is from 0 to 2^64 - 1. What some kinds hold nobody asks here.
#[allow(dead_code)]
enum Value {
    Null,
    Bool(bool),
    Whole(u64),
    Number(f64),
    Text(String),
    List(Vec<Value>),
    Object(BTreeMap<String, Value>),
}

struct NotJson;

/// Reads one value of JSON.
struct Json<'a> {
    text: &'a str,
    at: usize,
}

impl<'a> Json<'a> {
    fn whole(text: &'a str) -> Result<Value, NotJson> {
        let mut json = Json { text, at: 0 };
        let value = json.value(0)?;
        json.blanks();
        if json.at == text.len() { Ok(value) } else { Err(NotJson) }
    }

    fn peek(&self) -> Option<u8> {
        self.text.as_bytes().get(self.at).copied()
    }

    fn blanks(&mut self) {
        while let Some(b' ' | b'\t' | b'\n' | b'\r') = self.peek() {
            self.at += 1;
        }
    }

    fn takes(&mut self, byte: u8) -> bool {
        let is_there = self.peek() == Some(byte);
        self.at += usize::from(is_there);
        is_there
    }

    fn expect(&mut self, byte: u8) -> Result<(), NotJson> {
        if self.takes(byte) { Ok(()) } else { Err(NotJson) }
    }

    fn word(&mut self, word: &str, value: Value) -> Result<Value, NotJson> {
        if !self.text[self.at..].starts_with(word) {
            return Err(NotJson);
        }
        self.at += word.len();
        Ok(value)
    }

    fn value(&mut self, depth: usize) -> Result<Value, NotJson> {
        self.blanks();
        match self.peek() {
            Some(b'{') => self.object(depth + 1),
            Some(b'[') => self.list(depth + 1),
            Some(b'"') => Ok(Value::Text(self.string()?)),
            Some(b't') => self.word("true", Value::Bool(true)),
            Some(b'f') => self.word("false", Value::Bool(false)),
            Some(b'n') => self.word("null", Value::Null),
            _ => self.number(),
        }
    }

    fn object(&mut self, depth: usize) -> Result<Value, NotJson> {
        let mut members = BTreeMap::new();
        self.expect(b'{')?;
        self.blanks();
        if depth > DEPTH {
            return Err(NotJson);
        }
        if self.takes(b'}') {
            return Ok(Value::Object(members));
        }
        loop {
            self.blanks();
            let key = self.string()?;
            self.blanks();
            self.expect(b':')?;
            // The last value of a key counts.
            members.insert(key, self.value(depth)?);
            self.blanks();
            if self.takes(b'}') {
                return Ok(Value::Object(members));
            }
            self.expect(b',')?;
        }
    }

    fn list(&mut self, depth: usize) -> Result<Value, NotJson> {
        let mut items = Vec::new();
        self.expect(b'[')?;
        self.blanks();
        if depth > DEPTH {
            return Err(NotJson);
        }
        if self.takes(b']') {
            return Ok(Value::List(items));
        }
        loop {
            items.push(self.value(depth)?);
            self.blanks();
            if self.takes(b']') {
                return Ok(Value::List(items));
            }
            self.expect(b',')?;
        }
    }

    fn digits(&mut self) -> Result<(), NotJson> {
        let begin = self.at;
        while let Some(b'0'..=b'9') = self.peek() {
            self.at += 1;
        }
        if self.at > begin { Ok(()) } else { Err(NotJson) }
    }

    fn number(&mut self) -> Result<Value, NotJson> {
        let begin = self.at;
        let mut is_whole = !self.takes(b'-');
        let first = self.at;
        self.digits()?;
        if self.at - first > 1 && self.text.as_bytes()[first] == b'0' {
            return Err(NotJson);
        }
        if self.takes(b'.') {
            is_whole = false;
            self.digits()?;
        }
        if self.takes(b'e') || self.takes(b'E') {
            is_whole = false;
            if !self.takes(b'+') {
                self.takes(b'-');
            }
            self.digits()?;
        }
        let text = &self.text[begin..self.at];
        if is_whole {
            if let Ok(number) = text.parse() {
                return Ok(Value::Whole(number));
            }
        }
        match text.parse::<f64>() {
            Ok(number) if number.is_finite() => Ok(Value::Number(number)),
            _ => Err(NotJson),
        }
    }

    fn string(&mut self) -> Result<String, NotJson> {
        self.expect(b'"')?;
        let mut string = String::new();
        loop {
            let begin = self.at;
            while !matches!(self.peek(), None | Some(b'"' | b'\\' | 0..=0x1f)) {
                self.at += 1;
            }
            string.push_str(&self.text[begin..self.at]);
            if self.takes(b'"') {
                return Ok(string);
            }
            self.expect(b'\\')?;
            string.push(self.escape()?);
        }
    }

    fn escape(&mut self) -> Result<char, NotJson> {
        let byte = self.peek().ok_or(NotJson)?;
        self.at += 1;
        Ok(match byte {
            b'"' | b'\\' | b'/' => char::from(byte),
            b'b' => '\u{8}',
            b'f' => '\u{c}',
            b'n' => '\n',
            b'r' => '\r',
            b't' => '\t',
            b'u' => {
                let mut code = self.unit()?;
                if (0xd800..0xdc00).contains(&code) {
                    self.expect(b'\\')?;
                    self.expect(b'u')?;
                    let low = self.unit()?;
                    if !(0xdc00..0xe000).contains(&low) {
                        return Err(NotJson);
                    }
                    code = 0x10000 + ((code - 0xd800) << 10) + (low - 0xdc00);
                }
                char::from_u32(code).ok_or(NotJson)?
            }
            _ => return Err(NotJson),
        })
    }

    /// The four hexadecimal digits of an escape.
    fn unit(&mut self) -> Result<u32, NotJson> {
        let digits = self.text.as_bytes().get(self.at..self.at + 4).ok_or(NotJson)?;
        self.at += 4;
        digits.iter().try_fold(0, |unit, digit| Some(unit * 16 + char::from(*digit).to_digit(16)?)).ok_or(NotJson)
    }
}

/// A text between quotes: escaped is what JSON must escape, and what a terminal would obey.
struct Quoted<'a>(&'a str);

impl fmt::Display for Quoted<'_> {
    fn fmt(&self, out: &mut fmt::Formatter) -> fmt::Result {
        out.write_str("\"")?;
        for letter in self.0.chars() {
            match letter {
                '"' | '\\' => write!(out, "\\{letter}")?,
                '\u{8}' => out.write_str("\\b")?,
                '\u{c}' => out.write_str("\\f")?,
                '\n' => out.write_str("\\n")?,
                '\r' => out.write_str("\\r")?,
                '\t' => out.write_str("\\t")?,
                '\0'..='\x1f' | '\x7f'..='\u{9f}' | '\u{61c}' | '\u{200e}' | '\u{200f}' | '\u{202a}'..='\u{202e}' | '\u{2066}'..='\u{2069}' => {
                    write!(out, "\\u{:04x}", u32::from(letter))?
                }
                _ => write!(out, "{letter}")?,
            }
        }
        out.write_str("\"")
    }
}

// SHA-256

const ROUNDS: [u32; 64] = [
    0x428a2f98, 0x71374491, 0xb5c0fbcf, 0xe9b5dba5, 0x3956c25b, 0x59f111f1, 0x923f82a4, 0xab1c5ed5, 0xd807aa98, 0x12835b01, 0x243185be, 0x550c7dc3, 0x72be5d74,
    0x80deb1fe, 0x9bdc06a7, 0xc19bf174, 0xe49b69c1, 0xefbe4786, 0x0fc19dc6, 0x240ca1cc, 0x2de92c6f, 0x4a7484aa, 0x5cb0a9dc, 0x76f988da, 0x983e5152, 0xa831c66d,
    0xb00327c8, 0xbf597fc7, 0xc6e00bf3, 0xd5a79147, 0x06ca6351, 0x14292967, 0x27b70a85, 0x2e1b2138, 0x4d2c6dfc, 0x53380d13, 0x650a7354, 0x766a0abb, 0x81c2c92e,
    0x92722c85, 0xa2bfe8a1, 0xa81a664b, 0xc24b8b70, 0xc76c51a3, 0xd192e819, 0xd6990624, 0xf40e3585, 0x106aa070, 0x19a4c116, 0x1e376c08, 0x2748774c, 0x34b0bcb5,
    0x391c0cb3, 0x4ed8aa4a, 0x5b9cca4f, 0x682e6ff3, 0x748f82ee, 0x78a5636f, 0x84c87814, 0x8cc70208, 0x90befffa, 0xa4506ceb, 0xbef9a3f7, 0xc67178f2,
];

fn sha256(message: &[u8]) -> [u32; 8] {
    let mut state: [u32; 8] = [0x6a09e667, 0xbb67ae85, 0x3c6ef372, 0xa54ff53a, 0x510e527f, 0x9b05688c, 0x1f83d9ab, 0x5be0cd19];
    let mut padded = message.to_vec();
    padded.push(0x80);
    while padded.len() % 64 != 56 {
        padded.push(0);
    }
    padded.extend_from_slice(&(8 * message.len() as u64).to_be_bytes());
    for block in padded.chunks_exact(64) {
        let mut words = [0u32; 64];
        for (word, bytes) in words.iter_mut().zip(block.chunks_exact(4)) {
            *word = u32::from_be_bytes([bytes[0], bytes[1], bytes[2], bytes[3]]);
        }
        for at in 16..64 {
            let (one, other) = (words[at - 15], words[at - 2]);
            let first = one.rotate_right(7) ^ one.rotate_right(18) ^ (one >> 3);
            let second = other.rotate_right(17) ^ other.rotate_right(19) ^ (other >> 10);
            words[at] = first.wrapping_add(second).wrapping_add(words[at - 16]).wrapping_add(words[at - 7]);
        }
        let [mut a, mut b, mut c, mut d, mut e, mut f, mut g, mut h] = state;
        for (constant, word) in ROUNDS.iter().zip(words) {
            let first = e.rotate_right(6) ^ e.rotate_right(11) ^ e.rotate_right(25);
            let second = a.rotate_right(2) ^ a.rotate_right(13) ^ a.rotate_right(22);
            let added = h.wrapping_add(first).wrapping_add((e & f) ^ (!e & g)).wrapping_add(*constant).wrapping_add(word);
            (h, g, f, e) = (g, f, e, d.wrapping_add(added));
            (d, c, b, a) = (c, b, a, added.wrapping_add(second).wrapping_add((a & b) ^ (a & c) ^ (b & c)));
        }
        for (word, more) in state.iter_mut().zip([a, b, c, d, e, f, g, h]) {
            *word = word.wrapping_add(more);
        }
    }
    state
}

fn hash_of(schema: &str, distinguisher: &str) -> u64 {
    let [first, second, ..] = sha256(&[schema.as_bytes(), b"\0", distinguisher.as_bytes()].concat());
    (u64::from(first) << 32 | u64::from(second)).swap_bytes()
}

// The files

struct Config {
    limit: u64,
    /// 0 of a level that rejects.
    queues: usize,
    hand_size: usize,
    queue_length_limit: usize,
}

#[derive(PartialEq, Eq, PartialOrd, Ord)]
struct Names {
    schema: String,
    distinguisher: String,
}

/// A request of a trace. They come in the order of their arrivals, and those of one time in the order of their lines.
#[derive(PartialEq, Eq, PartialOrd, Ord)]
struct Request {
    arrives_at: u64,
    line: u64,
    runs_for: u64,
    width: u64,
    cost: Option<u64>,
    hash: u64,
    names: Option<Rc<Names>>,
}

type Members = BTreeMap<String, Value>;

/// The whole number at a key, which is in this range, or what counts if there is none.
fn whole(members: &Members, key: &str, low: u64, high: u64, absent: Option<u64>) -> Option<u64> {
    match members.get(key) {
        Some(Value::Whole(number)) if (low..=high).contains(number) => Some(*number),
        Some(_) => None,
        None => absent,
    }
}

fn has_other_keys(members: &Members, keys: &[&str]) -> bool {
    members.keys().any(|key| !keys.contains(&key.as_str()))
}

fn config_of(text: &str) -> Option<Config> {
    let Ok(Value::Object(members)) = Json::whole(text) else { return None };
    if has_other_keys(&members, &["limit", "queues", "handSize", "queueLengthLimit", "limitResponse"]) {
        return None;
    }
    let limit = whole(&members, "limit", 1, 10_000, None)?;
    let queues = whole(&members, "queues", 1, 1_024, Some(64))?;
    let hand_size = whole(&members, "handSize", 1, 15, Some(8))?;
    let queue_length_limit = whole(&members, "queueLengthLimit", 1, 10_000, Some(50))?;
    let queues = match members.get("limitResponse") {
        Some(Value::Text(text)) if text == "Reject" => 0,
        Some(Value::Text(text)) if text != "Queue" => return None,
        // A hand is dealt of the hash's bits, so there must be enough of them.
        None | Some(Value::Text(_)) if hand_size <= queues && u128::from(queues).checked_pow(hand_size as u32)? <= 1 << 60 => queues,
        _ => return None,
    };
    Some(Config { limit, queues: queues as usize, hand_size: hand_size as usize, queue_length_limit: queue_length_limit as usize })
}

/// Reads a trace in pieces, and hands out its requests in the order of their arrivals.
struct Trace<R> {
    reader: R,
    line: Vec<u8>,
    lines: u64,
    coming: BinaryHeap<Reverse<Request>>,
    in_order: VecDeque<Request>,
    last_arrival: u64,
    /// The names that came, with their hashes.
    names: HashMap<(String, String), (Rc<Names>, u64)>,
}

/// The line of a fault, from 1.
struct BadLine(u64);

impl<R: BufRead> Trace<R> {
    fn new(reader: R) -> Self {
        Trace { reader, line: Vec::new(), lines: 0, coming: BinaryHeap::new(), in_order: VecDeque::new(), last_arrival: 0, names: HashMap::new() }
    }

    /// Reads until as many requests as may be held are there, and one more.
    fn fill(&mut self) -> Result<(), BadLine> {
        while self.coming.len() + self.in_order.len() <= WINDOW {
            self.line.clear();
            // A line that is too long, or that can't be read, has no LF at its end here.
            let read = self.reader.by_ref().take(BYTES_OF_LINE as u64 + 1).read_until(b'\n', &mut self.line);
            if matches!(read, Ok(0)) {
                break;
            }
            let request = self.request().ok_or(BadLine(self.lines + 1))?;
            if request.arrives_at < self.last_arrival {
                return Err(BadLine(self.lines + 1));
            }
            match self.in_order.back() {
                Some(last) if request < *last => self.coming.push(Reverse(request)),
                _ => self.in_order.push_back(request),
            }
            self.lines += 1;
        }
        Ok(())
    }

    fn next(&mut self) -> Result<Option<Request>, BadLine> {
        self.fill()?;
        let is_late = match (self.coming.peek(), self.in_order.front()) {
            (Some(Reverse(late)), Some(first)) => late < first,
            (late, _) => late.is_some(),
        };
        let next = if is_late { self.coming.pop().map(|Reverse(request)| request) } else { self.in_order.pop_front() };
        self.last_arrival = next.as_ref().map_or(0, |request| request.arrives_at);
        Ok(next)
    }

    /// The request of the line.
    fn request(&mut self) -> Option<Request> {
        let line = str::from_utf8(self.line.strip_suffix(b"\n")?).ok()?;
        let Ok(Value::Object(mut members)) = Json::whole(line) else { return None };
        if has_other_keys(&members, &["arrivesAt", "runsFor", "schema", "distinguisher", "hash", "width", "cost"]) {
            return None;
        }
        let arrives_at = whole(&members, "arrivesAt", 0, 1_000_000_000_000, None)?;
        let runs_for = whole(&members, "runsFor", 0, 10_000_000_000, None)?;
        let width = whole(&members, "width", 1, 20_000, Some(1))?;
        let cost = match members.get("cost") {
            Some(_) => Some(whole(&members, "cost", 1, 4_294_967_295, None)?),
            None => None,
        };
        let (hash, names) = match (members.remove("hash"), members.remove("schema"), members.remove("distinguisher")) {
            (Some(Value::Whole(hash)), None, None) => (hash, None),
            (None, Some(Value::Text(schema)), Some(Value::Text(distinguisher))) => {
                let (names, hash) = self.named(schema, distinguisher);
                (hash, Some(names))
            }
            _ => return None,
        };
        Some(Request { arrives_at, line: self.lines, runs_for, width, cost, hash, names })
    }

    fn named(&mut self, schema: String, distinguisher: String) -> (Rc<Names>, u64) {
        if self.names.len() == MOST_NAMES {
            self.names.clear();
        }
        match self.names.entry((schema, distinguisher)) {
            Entry::Occupied(known) => known.get().clone(),
            Entry::Vacant(place) => {
                let (schema, distinguisher) = place.key().clone();
                let hash = hash_of(&schema, &distinguisher);
                place.insert((Rc::new(Names { schema, distinguisher }), hash)).clone()
            }
        }
    }
}

// What requests are charged

#[derive(Default)]
struct Mean {
    count: i64,
    micros: i64,
}

impl Mean {
    /// The mean of all, or of about the newest 256.
    fn add(&mut self, ran: u64) {
        self.count = (self.count + 1).min(256);
        self.micros += (ran.min(u32::MAX.into()) as i64 - self.micros) / self.count;
    }
}

const SETS: u64 = 512;
const WAYS: usize = 8;

/// The means of the flows that are known: sets of at most eight, in each of which the flow goes that learned longest ago. The newest stands last.
struct Means {
    sets: Vec<Vec<(u64, Mean)>>,
    firsts: Mean,
}

impl Means {
    fn new() -> Self {
        Means { sets: (0..SETS).map(|_| Vec::new()).collect(), firsts: Mean::default() }
    }

    fn cost(&self, hash: u64, width: u64) -> u64 {
        let known = self.sets[(hash % SETS) as usize].iter().find(|(flow, _)| *flow == hash);
        let expected = match known {
            Some((_, mean)) => mean.micros,
            None if self.firsts.count > 0 => self.firsts.micros,
            None => 10_000,
        };
        (width * expected as u64).clamp(1, u32::MAX.into())
    }

    fn learn(&mut self, hash: u64, ran: u64) {
        let set = &mut self.sets[(hash % SETS) as usize];
        let mut mean = match set.iter().position(|(flow, _)| *flow == hash) {
            Some(place) => set.remove(place).1,
            None => {
                self.firsts.add(ran);
                if set.len() == WAYS {
                    set.remove(0);
                }
                Mean::default()
            }
        };
        mean.add(ran);
        set.push((hash, mean));
    }
}

// What is printed of a flow

/// The waits of those that executed: as they are, or how many have each of the first eight binary digits.
enum Waits {
    Exact(Vec<u64>),
    Counts(Vec<u64>),
}

/// The place of a wait among those that differ in their first eight binary digits.
fn place_of(wait: u64) -> usize {
    let behind = u64::BITS.saturating_sub(wait.leading_zeros() + 8);
    behind as usize * 128 + (wait >> behind) as usize
}

/// The least wait of a place.
fn least_at(place: usize) -> u64 {
    let behind = (place / 128).saturating_sub(1);
    ((place - behind * 128) as u64) << behind
}

fn count(counts: &mut Vec<u64>, wait: u64) {
    let place = place_of(wait);
    if place >= counts.len() {
        counts.resize(place + 1, 0);
    }
    counts[place] += 1;
}

impl Waits {
    fn add(&mut self, wait: u64) {
        match self {
            Waits::Exact(waits) if waits.len() < MOST_EXACT => waits.push(wait),
            Waits::Exact(waits) => {
                let mut counts = Vec::new();
                for wait in waits.drain(..) {
                    count(&mut counts, wait);
                }
                count(&mut counts, wait);
                *self = Waits::Counts(counts);
            }
            Waits::Counts(counts) => count(counts, wait),
        }
    }

    fn sort(&mut self) {
        if let Waits::Exact(waits) = self {
            waits.sort_unstable();
        }
    }

    /// The least wait such that at least this many of a hundred are not above it.
    fn rank(&self, percent: u64) -> u64 {
        match self {
            Waits::Exact(waits) if waits.is_empty() => 0,
            Waits::Exact(waits) => waits[(waits.len() * percent as usize).div_ceil(100) - 1],
            Waits::Counts(counts) => {
                let rank = (counts.iter().sum::<u64>() * percent).div_ceil(100);
                let mut below = 0;
                let place = counts.iter().position(|count| {
                    below += count;
                    below >= rank
                });
                least_at(place.expect("the rank is at most the sum"))
            }
        }
    }
}

struct Row {
    hash: u64,
    first_line: u64,
    names: Option<Rc<Names>>,
    hand: Vec<usize>,
    requests: u64,
    executed: u64,
    cancelled: u64,
    seat_time: u128,
    waits: Waits,
    longest: u64,
}

impl Row {
    fn new(request: &Request, hand: Vec<usize>) -> Self {
        Row {
            hash: request.hash,
            first_line: request.line,
            names: request.names.clone(),
            hand,
            requests: 0,
            executed: 0,
            cancelled: 0,
            seat_time: 0,
            waits: Waits::Exact(Vec::new()),
            longest: 0,
        }
    }

    fn print(&mut self, out: &mut impl Write) -> io::Result<()> {
        let Row { requests, executed, cancelled, seat_time, longest, .. } = *self;
        let rejected = requests - executed - cancelled;
        self.waits.sort();
        let mark = if matches!(self.waits, Waits::Exact(_)) { "" } else { "~" };
        let (median, p99) = (self.waits.rank(50), self.waits.rank(99));
        write!(out, " requests {requests} executed {executed} rejected {rejected} cancelled {cancelled} seat-time {seat_time}")?;
        write!(out, " wait median {mark}{median} p99 {mark}{p99} longest {longest}")
    }
}

/// The rows of the flows, in the order in which they came. Those beyond the most have one together.
struct Rows {
    rows: Vec<Row>,
    places: HashMap<u64, usize>,
    others: Option<Row>,
}

/// Where a row stands.
#[derive(Clone, Copy)]
enum Place {
    Flow(usize),
    Others,
}

impl Rows {
    fn place(&mut self, request: &Request, hand: impl FnOnce() -> Vec<usize>) -> Place {
        let count = self.rows.len();
        match self.places.entry(request.hash) {
            Entry::Occupied(known) => {
                let row = &mut self.rows[*known.get()];
                if request.line < row.first_line {
                    row.first_line = request.line;
                    row.names = request.names.clone();
                }
                Place::Flow(*known.get())
            }
            Entry::Vacant(new) if count < MOST_FLOWS => {
                new.insert(count);
                self.rows.push(Row::new(request, hand()));
                Place::Flow(count)
            }
            Entry::Vacant(_) => {
                self.others.get_or_insert_with(|| Row::new(request, Vec::new()));
                Place::Others
            }
        }
    }

    fn at(&mut self, place: Place) -> &mut Row {
        match place {
            Place::Flow(number) => &mut self.rows[number],
            Place::Others => self.others.as_mut().expect("it is there once a request is one of the others"),
        }
    }
}

// The level

/// A request that is there.
struct Held {
    request: Request,
    row: Place,
    cost: u64,
    state: State,
}

#[derive(Clone, Copy, PartialEq)]
enum State {
    Waits { queue: usize },
    /// With the queue that was charged, unless it took its seats at once.
    Runs { charged: Option<usize> },
}

#[derive(Default)]
struct Queue {
    /// The places of those that wait, and their costs.
    waiting: VecDeque<(usize, u64)>,
    start: u128,
}

#[derive(Default)]
struct Book {
    executed: u64,
    cancelled: u64,
    queue_full: u64,
    no_room: u64,
    entered: u64,
    dispatched: u64,
    struck: u64,
    waited: u128,
}

struct Level {
    config: Config,
    patience: u64,
    /// None where requests are charged by seats.
    means: Option<Means>,
    rows: Rows,
    held: Vec<Option<Held>>,
    free: Vec<usize>,
    queues: Vec<Queue>,
    last_served: usize,
    virtual_time: u128,
    seats: u64,
    waiting: usize,
    /// When each that runs ends, with its line and its place.
    ends: BinaryHeap<Reverse<(u64, u64, usize)>>,
    /// The lines and the places of those that entered queues, in the order of their arrivals. Some of them wait no more.
    oldest: VecDeque<(u64, usize)>,
    book: Book,
}

/// A hand of queues, by a flow's hash.
fn deal(queues: usize, hand_size: usize, mut hash: u64) -> Vec<usize> {
    let mut cards: Vec<usize> = (0..queues).collect();
    let mut hand = Vec::with_capacity(hand_size);
    for _ in 0..hand_size.min(queues) {
        let left = cards.len() as u64;
        hand.push(cards.remove((hash % left) as usize));
        hash /= left;
    }
    hand
}

impl Level {
    fn new(config: Config, patience: u64, means: Option<Means>) -> Self {
        Level {
            queues: (0..config.queues).map(|_| Queue::default()).collect(),
            last_served: config.queues.saturating_sub(1),
            config,
            patience,
            means,
            rows: Rows { rows: Vec::new(), places: HashMap::new(), others: None },
            held: Vec::new(),
            free: Vec::new(),
            virtual_time: 0,
            seats: 0,
            waiting: 0,
            ends: BinaryHeap::new(),
            oldest: VecDeque::new(),
            book: Book::default(),
        }
    }

    fn there(&self) -> usize {
        self.waiting + self.ends.len()
    }

    fn fits(&self, width: u64) -> bool {
        self.seats == 0 || self.seats + width <= self.config.limit
    }

    fn held(&mut self, place: usize) -> &mut Held {
        self.held[place].as_mut().expect("the place is taken")
    }

    fn hold(&mut self, held: Held) -> usize {
        match self.free.pop() {
            Some(place) => {
                self.held[place] = Some(held);
                place
            }
            None => {
                self.held.push(Some(held));
                self.held.len() - 1
            }
        }
    }

    fn let_go(&mut self, place: usize) -> Held {
        self.free.push(place);
        self.held[place].take().expect("the place is taken")
    }

    fn execute(&mut self, place: usize, charged: Option<usize>, now: u64) {
        let held = self.held[place].as_mut().expect("the place is taken");
        held.state = State::Runs { charged };
        let Request { arrives_at, line, runs_for, width, .. } = held.request;
        let wait = now - arrives_at;
        let row = self.rows.at(held.row);
        row.executed += 1;
        row.seat_time += u128::from(width) * u128::from(runs_for);
        row.waits.add(wait);
        row.longest = row.longest.max(wait);
        self.book.waited += u128::from(wait);
        self.seats += width;
        self.ends.push(Reverse((now + runs_for, line, place)));
    }

    /// The queue whose first request has the least virtual finish, and that finish. Ties go to the next one behind the last that was served.
    fn chosen(&self) -> Option<(usize, u128)> {
        let next = self.last_served + 1;
        (next..self.queues.len())
            .chain(0..next)
            .filter_map(|number| {
                let queue = &self.queues[number];
                queue.waiting.front().map(|(_, cost)| (number, queue.start + u128::from(*cost)))
            })
            .min_by_key(|(_, finish)| *finish)
    }

    fn dispatch(&mut self, now: u64) {
        while self.waiting > 0 && self.seats < self.config.limit {
            let Some((chosen, finish)) = self.chosen() else { return };
            let place = self.queues[chosen].waiting[0].0;
            let width = self.held(place).request.width;
            if !self.fits(width) {
                return;
            }
            let queue = &mut self.queues[chosen];
            queue.waiting.pop_front();
            self.virtual_time = self.virtual_time.max(queue.start);
            queue.start = finish;
            self.waiting -= 1;
            self.last_served = chosen;
            self.book.dispatched += 1;
            self.execute(place, Some(chosen), now);
        }
    }

    /// The first that ends is over.
    fn finish(&mut self) {
        let Some(Reverse((now, _, place))) = self.ends.pop() else { return };
        let held = self.let_go(place);
        let Request { width, runs_for, hash, .. } = held.request;
        if let Some(means) = &mut self.means {
            if let State::Runs { charged: Some(queue) } = held.state {
                let took = (width * runs_for).clamp(1, 1 << 46);
                let start = &mut self.queues[queue].start;
                *start = *start + u128::from(took) - u128::from(held.cost);
            }
            means.learn(hash, runs_for);
        }
        self.book.executed += 1;
        self.seats -= width;
        self.dispatch(now);
    }

    /// When the one that waits longest gives up.
    fn next_to_give_up(&mut self) -> Option<u64> {
        while let Some((line, place)) = self.oldest.front() {
            match &self.held[*place] {
                Some(Held { request, state: State::Waits { .. }, .. }) if request.line == *line => return Some(request.arrives_at + self.patience),
                _ => self.oldest.pop_front(),
            };
        }
        None
    }

    fn give_up(&mut self, now: u64) {
        let Some((_, place)) = self.oldest.pop_front() else { return };
        let held = self.let_go(place);
        if let State::Waits { queue } = held.state {
            // Nobody of its queue came before it.
            self.queues[queue].waiting.pop_front();
        }
        self.rows.at(held.row).cancelled += 1;
        self.waiting -= 1;
        self.book.cancelled += 1;
        self.book.struck += 1;
        self.book.waited += u128::from(now - held.request.arrives_at);
        self.dispatch(now);
    }

    fn arrive(&mut self, request: Request) {
        let Request { arrives_at: now, line, width, hash, .. } = request;
        let Config { queues, hand_size, queue_length_limit, .. } = self.config;
        let row = self.rows.place(&request, || deal(queues, hand_size, hash));
        self.rows.at(row).requests += 1;
        let cost = request.cost.unwrap_or_else(|| self.means.as_ref().map_or(width, |means| means.cost(hash, width)));
        if self.waiting == 0 && self.fits(width) {
            let place = self.hold(Held { request, row, cost, state: State::Runs { charged: None } });
            self.execute(place, None, now);
            return;
        }
        let shortest = |hand: &[usize]| hand.iter().copied().min_by_key(|queue| self.queues[*queue].waiting.len());
        let queue = match row {
            Place::Flow(number) => shortest(&self.rows.rows[number].hand),
            Place::Others => shortest(&deal(queues, hand_size, hash)),
        };
        let Some(queue) = queue else {
            self.book.no_room += 1;
            return;
        };
        if self.queues[queue].waiting.len() >= queue_length_limit {
            self.book.queue_full += 1;
            return;
        }
        let place = self.hold(Held { request, row, cost, state: State::Waits { queue } });
        let entered = &mut self.queues[queue];
        if entered.waiting.is_empty() {
            entered.start = entered.start.max(self.virtual_time);
        }
        entered.waiting.push_back((place, cost));
        self.waiting += 1;
        self.book.entered += 1;
        if self.patience > 0 {
            self.remember(line, place);
        }
        self.dispatch(now);
    }

    fn remember(&mut self, line: u64, place: usize) {
        self.oldest.push_back((line, place));
        if self.oldest.len() > 4 * MOST_THERE {
            let held = &self.held;
            self.oldest.retain(|(line, place)| matches!(&held[*place], Some(it) if it.request.line == *line && matches!(it.state, State::Waits { .. })));
        }
    }
}

/// What ended a run before its end.
enum Fault {
    BadLine(u64),
    /// The line, from 1, and the time of the request that found too many there.
    Crowd(u64, u64),
}

impl From<BadLine> for Fault {
    fn from(fault: BadLine) -> Self {
        Fault::BadLine(fault.0)
    }
}

/// Carries out what is due, in its order: finishes, those who give up, arrivals. Answers the level, and when the last was done.
fn simulate(config: Config, patience: u64, trace: &mut Trace<impl BufRead>) -> Result<(Level, u64), Fault> {
    trace.fill()?;
    // By seats where a line that is read before the first request is handed out has a cost.
    let has_costs = trace.coming.iter().map(|Reverse(request)| request).chain(&trace.in_order).any(|request| request.cost.is_some());
    let mut level = Level::new(config, patience, if has_costs { None } else { Some(Means::new()) });
    let mut end = 0;
    let mut coming = trace.next()?;
    loop {
        let over = level.ends.peek().map_or(u64::MAX, |Reverse((ends, ..))| *ends);
        let late = level.next_to_give_up().unwrap_or(u64::MAX);
        let arrival = coming.as_ref().map_or(u64::MAX, |request| request.arrives_at);
        let now = over.min(late).min(arrival);
        if now == u64::MAX {
            return Ok((level, end));
        }
        end = now;
        if over == now {
            level.finish();
        } else if late == now {
            level.give_up(now);
        } else if let Some(request) = coming {
            if level.there() == MOST_THERE {
                return Err(Fault::Crowd(request.line + 1, now));
            }
            level.arrive(request);
            coming = trace.next()?;
        }
    }
}

fn print(level: &mut Level, requests: u64, end: u64) -> io::Result<()> {
    let mut out = BufWriter::new(io::stdout().lock());
    let rows = &mut level.rows;
    let seat_time: u128 = rows.rows.iter().chain(&rows.others).map(|row| row.seat_time).sum();
    rows.rows.sort_by_key(|row| row.first_line);
    for row in &mut rows.rows {
        write!(out, "flow {:016x}", row.hash)?;
        row.print(&mut out)?;
        if let Some(names) = &row.names {
            write!(out, " of {} {}", Quoted(&names.schema), Quoted(&names.distinguisher))?;
        }
        writeln!(out)?;
    }
    if let Some(row) = &mut rows.others {
        write!(out, "others")?;
        row.print(&mut out)?;
        writeln!(out)?;
    }
    let book = &level.book;
    let rejected = book.queue_full + book.no_room;
    let undecided = requests - book.executed - rejected - book.cancelled;
    let could = u128::from(level.config.limit) * u128::from(end);
    writeln!(out, "end {end} seat-time {seat_time} of {could} waited {} patience {}", book.waited, level.patience)?;
    writeln!(out, "level open seats {} waiting {}", level.seats, level.waiting)?;
    writeln!(out, "executed {} rejected {rejected} cancelled {} undecided {undecided}", book.executed, book.cancelled)?;
    writeln!(out, "queue-full {} closed 0 concurrency-limit {}", book.queue_full, book.no_room)?;
    writeln!(out, "entered {} dispatched {} struck {}", book.entered, book.dispatched, book.struck)?;
    out.flush()
}

/// A patience in microseconds: a whole number, or a number with a unit.
fn patience_of(word: &str) -> Option<u64> {
    let word = word.strip_prefix('+').unwrap_or(word);
    let (number, unit) = word.split_at(word.find(|it: char| it.is_ascii_lowercase()).unwrap_or(word.len()));
    let micros = match unit {
        "" | "us" => 1,
        "ms" => 1_000,
        "s" => 1_000_000,
        "m" => 60_000_000,
        _ => return None,
    };
    let (before, behind) = match number.split_once('.') {
        Some((before, behind)) if !unit.is_empty() && (1..=6).contains(&behind.len()) => (before, behind),
        Some(_) => return None,
        None => (number, "0"),
    };
    let are_digits = |text: &str| text.bytes().all(|it| it.is_ascii_digit());
    if before.is_empty() || !are_digits(before) || !are_digits(behind) {
        return None;
    }
    let millionths = before.parse::<u128>().ok()?.checked_mul(1_000_000)? + format!("{behind:0<6}").parse::<u128>().ok()?;
    let patience = millionths.checked_mul(micros)?;
    (patience % 1_000_000 == 0 && patience / 1_000_000 <= MOST_PATIENCE).then_some((patience / 1_000_000) as u64)
}

fn fail(said: impl fmt::Display, status: i32) -> ! {
    eprintln!("simulate: {said}");
    process::exit(status)
}

fn main() {
    let words: Vec<String> = env::args().skip(1).collect();
    let [config, trace, patience] = &words[..] else { fail("usage: simulate CONFIG TRACE|- PATIENCE", 2) };
    let Some(patience) = patience_of(patience) else { fail("bad patience", 2) };
    let opened = |name: &str| File::open(name).unwrap_or_else(|fault| fail(format_args!("{name}: {fault}"), 1));
    let mut text = String::new();
    let read = opened(config).take(BYTES_OF_CONFIG + 1).read_to_string(&mut text);
    let Some(config) = config_of(&text).filter(|_| read.is_ok() && text.len() as u64 <= BYTES_OF_CONFIG) else { fail("bad config", 1) };
    let reader: Box<dyn Read> = if trace == "-" { Box::new(io::stdin()) } else { Box::new(opened(trace)) };
    let mut trace = Trace::new(BufReader::new(reader));
    match simulate(config, patience, &mut trace) {
        Ok((mut level, end)) => print(&mut level, trace.lines, end).unwrap_or_else(|fault| fail(fault, 1)),
        Err(Fault::BadLine(line)) => fail(format_args!("bad line {line}"), 1),
        Err(Fault::Crowd(line, time)) => fail(format_args!("at line {line}, at {time}, more than {MOST_THERE} requests are there at once"), 1),
    }
}
