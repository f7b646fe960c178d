//! The work of `slate_bench` and of `slate` in plain Rust, for comparison: the same bytes, by the standard library alone.
//!
//! With no word it prints what was done, and with the word `time` how long it took too. Lines and figures are those of
//! `slate_bench`, and so are those of `threads THREADS ROUNDS`. More words are there for scripts: `make NAME` prints one of them, `run -` and
//! `run FOLDER` answer one as `slate` does, `keep -` and `keep FOLDER` do so and keep a journal, `reads -` and `reads FOLDER` answer one too, and
//! print no replies, but how much of tables they read, `gen ROUNDS SEED` answers as `slate - gen ROUNDS SEED`, with a journal too, and `index`,
//! `stock` and `queue` answer lines as the programs of these names, with a journal too. `measure FILE PROGRAM WORDS..` runs a program and appends
//! to the file what it took. Behind a store may stand the words `filter=none`, `seg=colon` and `op=max`, as for `slate`.

use block::{decode_block, walk_v1, walk_v2, Builder, Row, Sums, Version};
use script::{Journal, Settings, Store};
use std::collections::BTreeMap;
use std::env;
use std::io;
use std::process::exit;
use std::time::Instant;
use table::{build_table, open_section, places_of, read_index, CrcTables, Places};

const ROWS: u64 = 200_000;
const TABLE_ROWS: usize = 100_000;
const VALUE_LEN: usize = 100;

fn make_rows() -> Vec<Row> {
    (0..ROWS)
        .map(|i| Row {
            key: format!("account/{i:08}/balance").into_bytes(),
            value: vec![(i % 251) as u8; VALUE_LEN],
            is_operand: false,
            seq: i + 1,
            create_ts: i as i64,
        })
        .collect()
}

fn encode_blocks(rows: &[Row], version: Version) -> Vec<Vec<u8>> {
    let mut blocks = Vec::new();
    let mut builder = Builder::new(version);
    for row in rows {
        if !builder.add(row) {
            blocks.push(builder.encode());
            builder = Builder::new(version);
            builder.add(row);
        }
    }
    blocks.push(builder.encode());
    blocks
}

fn decode_blocks(blocks: &[Vec<u8>], version: Version) -> Option<Sums> {
    let mut sums = Sums::default();
    for bytes in blocks {
        let (body, offsets) = decode_block(bytes)?;
        match version {
            Version::V1 => walk_v1(body, &offsets, &mut sums)?,
            Version::V2 => walk_v2(body, &offsets, &mut sums)?,
        }
    }
    Some(sums)
}

fn run_checksums(is_timed: bool) {
    let crc = CrcTables::new();
    let mut bytes: Vec<u8> = (0..4_194_304u32)
        .map(|number| (number % 251) as u8)
        .collect();
    let start = Instant::now();
    let (mut sums, mut len) = (0u64, 0u64);
    for turn in 0..64u32 {
        bytes.push((turn % 251) as u8);
        sums += u64::from(crc.checksum(&bytes));
        len += bytes.len() as u64;
    }
    report(
        is_timed,
        "checksum",
        &format!("{len} bytes, sums {sums}"),
        start,
    );
}

/// Reads all rows of a table whose parts stand at these places.
fn read_table(crc: &CrcTables, bytes: &[u8], places: Places, version: Version) -> Option<Sums> {
    let index = bytes.get(places.index_at..places.stats_at)?;
    let (offsets, _separators) = read_index(open_section(crc, index)?)?;
    let mut sums = Sums::default();
    for (i, at) in offsets.iter().enumerate() {
        let end = offsets.get(i + 1).copied().unwrap_or(places.filters_at);
        let (body, block_offsets) = decode_block(open_section(crc, bytes.get(*at..end)?)?)?;
        match version {
            Version::V1 => walk_v1(body, &block_offsets, &mut sums)?,
            Version::V2 => walk_v2(body, &block_offsets, &mut sums)?,
        }
    }
    Some(sums)
}

fn run_tables(is_timed: bool, rows: &[Row], version: Version, name: &str) -> Option<()> {
    let crc = CrcTables::new();
    let mut store = BTreeMap::new();
    let start = Instant::now();
    let table = build_table(&crc, rows, version, None);
    let done = format!("{} rows, {} bytes", rows.len(), table.len());
    store.insert("db/compacted/1.sst", table.as_slice().to_vec());
    report(is_timed, &format!("build table {name}"), &done, start);
    let stored = store.get("db/compacted/1.sst")?;
    let places = places_of(stored)?;
    let start = Instant::now();
    let sums = read_table(&crc, stored, places, version)?;
    report(is_timed, &format!("read table {name}"), &sums.text(), start);
    Some(())
}

/// Prints what was done, and with `time` how long it took.
fn report(is_timed: bool, name: &str, done: &str, start: Instant) {
    let nanos = start.elapsed().as_nanos();
    println!("{name}: {done}");
    if is_timed {
        println!("{name} took {nanos} ns");
    }
}

fn run_blocks(is_timed: bool, rows: &[Row], version: Version, name: &str) -> Option<()> {
    let start = Instant::now();
    let blocks = encode_blocks(rows, version);
    let bytes: usize = blocks.iter().map(Vec::len).sum();
    report(
        is_timed,
        &format!("encode {name}"),
        &format!(
            "{} rows, {} blocks, {bytes} bytes",
            rows.len(),
            blocks.len()
        ),
        start,
    );
    let start = Instant::now();
    let sums = decode_blocks(&blocks, version)?;
    report(is_timed, &format!("decode {name}"), &sums.text(), start);
    Some(())
}

/// The work of `slate_bench`. `None` where a block or a table can't be read.
fn run_parts(is_timed: bool) -> Option<()> {
    let rows = make_rows();
    let versions = [(Version::V1, "v1"), (Version::V2, "v2")];
    for (version, name) in versions {
        run_blocks(is_timed, &rows, version, name)?;
    }
    run_checksums(is_timed);
    for (version, name) in versions {
        run_tables(is_timed, &rows[..TABLE_ROWS], version, name)?;
    }
    Some(())
}

fn status_of(done: Option<()>) -> i32 {
    if done.is_some() {
        0
    } else {
        1
    }
}

/// Answers the script on standard input over a store, as the words behind it say.
fn run_script(store: &str, words: &[&str], journal: Journal) -> i32 {
    Settings::read(words).map_or(2, |settings| {
        script::run(
            Store::at(store),
            settings,
            journal,
            io::stdin(),
            io::stdout(),
        )
    })
}

/// The same, but it prints what was read of tables.
fn run_for_reads(store: &str, words: &[&str]) -> i32 {
    Settings::read(words).map_or(2, |settings| {
        script::run_for_reads(Store::at(store), settings, io::stdin(), io::stdout())
    })
}

fn main() {
    let words: Vec<String> = env::args().skip(1).collect();
    let words: Vec<&str> = words.iter().map(String::as_str).collect();
    let status = match words.as_slice() {
        [] => status_of(run_parts(false)),
        ["time"] => status_of(run_parts(true)),
        ["make", name] => status_of(scripts::make(name).map(|script| print!("{script}"))),
        ["make", name, "small"] => {
            status_of(scripts::make_small(name).map(|script| print!("{script}")))
        }
        ["run", store, words @ ..] => run_script(store, words, Journal::None),
        ["keep", store, words @ ..] => run_script(store, words, Journal::new()),
        ["reads", store, words @ ..] => run_for_reads(store, words),
        ["index"] => status_of(index::run(&mut io::stdin().lock(), &mut io::stdout().lock())),
        ["stock"] => stock::run(io::stdin(), io::stdout()),
        ["queue"] => queue::run(io::stdin(), io::stdout()),
        ["gen", rounds, seed] => script::run_generated(rounds, seed, io::stdout()),
        ["threads", threads, rounds] => share_rounds(threads, rounds, false),
        ["threads", threads, rounds, "time"] => share_rounds(threads, rounds, true),
        ["measure", file, program, words @ ..] => measure::measure(file, program, words),
        _ => 2,
    };
    exit(status);
}

/// Prints what so many threads did that shared so many rounds, and how long it took where that is asked for.
fn share_rounds(threads: &str, rounds: &str, is_timed: bool) -> i32 {
    let (Ok(threads), Ok(rounds)) = (threads.parse::<u64>(), rounds.parse()) else {
        return 2;
    };
    if !(1..=64).contains(&threads) {
        return 2;
    }
    let Some((text, nanos)) = script::share_rounds(threads, rounds) else {
        return 1;
    };
    println!("threads {threads}: {text}");
    if is_timed {
        println!("threads took {nanos} ns");
    }
    0
}

/// The journal of a program, as all three keep it.
mod journal {
    /// A transaction began at a sequence, ended, or was committed, at a moment where the program's lines name one. All is kept, and of most
    /// nothing asks for it.
    #[allow(dead_code)]
    pub enum Event<Op, Step, Moment = ()> {
        Begin {
            id: u64,
            seq: u64,
        },
        End {
            id: u64,
        },
        Commit {
            id: u64,
            seq: u64,
            now: Moment,
            ops: Vec<Op>,
            tracked: Vec<Vec<u8>>,
            transcript: Vec<Step>,
        },
    }
}

/// Records with two indexes, in memory, and the journal of all changes.
mod index {
    use std::cmp::Reverse;
    use std::collections::BTreeMap;
    use std::io::{BufRead, BufWriter, Write};
    use std::ops::Bound;

    /// How long a field is at most that gets an entry.
    const LONGEST_FIELD: usize = 1024;

    /// By which rows are ordered: by key upwards, and the newest of a key first.
    type RowKey = (Vec<u8>, Reverse<u64>);

    /// A put of a value, or a delete.
    type Op = (Vec<u8>, Option<Vec<u8>>);

    /// One thing that a transaction did or saw. It is kept, and nothing asks for it.
    #[allow(dead_code)]
    enum Step {
        Get(Vec<u8>, Option<Vec<u8>>),
        Own(Op),
    }

    type Event = crate::journal::Event<Op, Step>;

    /// All versions of all keys, and what was done.
    struct Records {
        rows: BTreeMap<RowKey, Option<Vec<u8>>>,
        journal: Vec<Event>,
        last: u64,
        ids: u64,
    }

    fn record_key(id: &[u8]) -> Vec<u8> {
        [b"r:", id].concat()
    }

    /// What the keys of all entries of the index with this field begin with.
    fn entry_prefix(number: u8, field: &[u8]) -> Vec<u8> {
        let mut key = vec![b'x', number];
        for &byte in field {
            key.push(byte);
            if byte == 0 {
                key.push(255);
            }
        }
        key.extend_from_slice(&[0, 1]);
        key
    }

    /// The entries of a record with this value: of the first and the second part between commas.
    fn entries(id: &[u8], value: &[u8]) -> Vec<Vec<u8>> {
        let mut keys = Vec::new();
        for (number, field) in (0..).zip(value.split(|&byte| byte == b',').take(2)) {
            if field.len() <= LONGEST_FIELD {
                let mut key = entry_prefix(number, field);
                key.extend_from_slice(id);
                keys.push(key);
            }
        }
        keys
    }

    impl Records {
        fn new() -> Records {
            Records {
                rows: BTreeMap::new(),
                journal: Vec::new(),
                last: 0,
                ids: 0,
            }
        }

        /// Begins a transaction, and gives its id.
        fn begin(&mut self) -> u64 {
            self.ids += 1;
            self.journal.push(Event::Begin {
                id: self.ids,
                seq: self.last,
            });
            self.ids
        }

        fn get(&self, key: &[u8]) -> Option<Vec<u8>> {
            let from = (key.to_vec(), Reverse(u64::MAX));
            let (found, value) = self.rows.range(from..).next()?;
            if found.0 == key {
                value.clone()
            } else {
                None
            }
        }

        /// Changes a record to a value, or to none, and tells whether it is changed.
        fn change(&mut self, id: &[u8], new: Option<&[u8]>) -> bool {
            let tx = self.begin();
            let key = record_key(id);
            let old = self.get(&key);
            if old.is_none() && new.is_none() {
                self.journal.push(Event::End { id: tx });
                return false;
            }
            let ops = change_ops(id, key.clone(), old.as_deref(), new);
            let mut transcript = vec![Step::Get(key, old)];
            transcript.extend(ops.iter().cloned().map(Step::Own));
            self.commit(tx, ops, transcript);
            true
        }

        /// Commits the last operation of each key.
        fn commit(&mut self, id: u64, ops: Vec<Op>, transcript: Vec<Step>) {
            let kept: BTreeMap<Vec<u8>, Option<Vec<u8>>> = ops.into_iter().collect();
            self.last += 1;
            let seq = self.last;
            for (key, value) in &kept {
                self.rows
                    .insert((key.clone(), Reverse(seq)), value.clone());
            }
            self.journal.push(Event::Commit {
                id,
                seq,
                now: (),
                tracked: kept.keys().cloned().collect(),
                ops: kept.into_iter().collect(),
                transcript,
            });
        }

        /// The ids of the records with this field.
        fn find(&mut self, number: u8, field: &[u8]) -> Vec<Vec<u8>> {
            let tx = self.begin();
            let prefix = entry_prefix(number, field);
            let from = Bound::Included((prefix.clone(), Reverse(u64::MAX)));
            let mut ids = Vec::new();
            let mut before: &[u8] = &[];
            for ((key, _), value) in self.rows.range((from, Bound::Unbounded)) {
                if !key.starts_with(&prefix) {
                    break;
                }
                if key != before && value.is_some() {
                    ids.push(key[prefix.len()..].to_vec());
                }
                before = key;
            }
            self.journal.push(Event::End { id: tx });
            ids
        }
    }

    /// What a change puts and deletes.
    fn change_ops(id: &[u8], key: Vec<u8>, old: Option<&[u8]>, new: Option<&[u8]>) -> Vec<Op> {
        let olds = old.map_or(Vec::new(), |value| entries(id, value));
        let news = new.map_or(Vec::new(), |value| entries(id, value));
        let mut ops: Vec<Op> = Vec::new();
        ops.extend(olds.into_iter().filter(|key| !news.contains(key)).map(|key| (key, None)));
        ops.push((key, new.map(<[u8]>::to_vec)));
        ops.extend(news.into_iter().map(|key| (key, Some(Vec::new()))));
        ops
    }

    /// Answers lines of records; nothing where one is none.
    pub fn run<R: BufRead, W: Write>(source: &mut R, sink: &mut W) -> Option<()> {
        let mut records = Records::new();
        let mut sink = BufWriter::new(sink);
        let mut line = Vec::new();
        loop {
            line.clear();
            if source.read_until(b'\n', &mut line).ok()? == 0 {
                return sink.flush().ok();
            }
            let words: Vec<&[u8]> = line.trim_ascii_end().split(|&byte| byte == b' ').collect();
            answer(&mut records, &words, &mut sink)?;
        }
    }

    fn answer<W: Write>(records: &mut Records, words: &[&[u8]], sink: &mut W) -> Option<()> {
        match words {
            [b"put", id, value] => {
                records.change(id, Some(value.strip_prefix(b"'")?));
                sink.write_all(b"ok\n").ok()
            }
            [b"del", id] => {
                if records.change(id, None) {
                    return sink.write_all(b"ok\n").ok();
                }
                sink.write_all(&[b"refused NoRecord ", *id, b"\n"].concat()).ok()
            }
            [b"find", number, field] => {
                let number = number.first()?.checked_sub(b'0')?;
                let ids = records.find(number, field.strip_prefix(b"'")?);
                write!(sink, "found {}", ids.len()).ok()?;
                for id in ids {
                    sink.write_all(b" ").ok()?;
                    sink.write_all(&id).ok()?;
                }
                sink.write_all(b"\n").ok()
            }
            _ => None,
        }
    }
}

/// Rows and blocks: how they are written, and how they are read.
mod block {
    use std::cmp::Ordering;

    const BLOCK_SIZE: usize = 4096;
    const RESTART_INTERVAL: usize = 16;

    /// The flag of a row that has its creation.
    const CREATED: u8 = 4;

    /// The flag of an operand.
    const OPERAND: u8 = 8;

    /// A put or an operand, as it is given to a builder.
    pub struct Row {
        pub key: Vec<u8>,
        pub value: Vec<u8>,
        pub is_operand: bool,
        pub seq: u64,
        pub create_ts: i64,
    }

    /// A row as it is read: the key put together, the value where it stands.
    pub struct ReadRow<'a> {
        pub key: Vec<u8>,
        pub value: &'a [u8],
        pub seq: u64,
        pub create_ts: Option<i64>,
        pub expire_ts: Option<i64>,
        pub flags: u8,
    }

    impl ReadRow<'_> {
        pub fn is_operand(&self) -> bool {
            self.flags & OPERAND != 0
        }
    }

    #[derive(Clone, Copy, PartialEq)]
    pub enum Version {
        V1,
        V2,
    }

    pub fn compute_prefix(a: &[u8], b: &[u8]) -> usize {
        a.iter().zip(b).take_while(|(x, y)| x == y).count()
    }

    fn varint_len(value: u32) -> usize {
        ((32 - value.leading_zeros()).max(1) as usize).div_ceil(7)
    }

    fn append_varint(out: &mut Vec<u8>, mut value: u32) {
        while value >= 128 {
            out.push(value as u8 | 128);
            value >>= 7;
        }
        out.push(value as u8);
    }

    pub struct Builder {
        version: Version,
        body: Vec<u8>,
        offsets: Vec<u16>,
        rows: usize,
        other: Vec<u8>,
    }

    impl Builder {
        pub fn new(version: Version) -> Builder {
            Builder {
                version,
                body: Vec::new(),
                offsets: Vec::new(),
                rows: 0,
                other: Vec::new(),
            }
        }

        fn is_restart(&self) -> bool {
            self.rows % RESTART_INTERVAL == 0
        }

        fn shared(&self, key: &[u8]) -> usize {
            match self.version {
                Version::V1 => compute_prefix(&self.other, key),
                Version::V2 if self.is_restart() => 0,
                Version::V2 => compute_prefix(&self.other, key),
            }
        }

        fn row_len(&self, row: &Row, shared: usize) -> usize {
            let suffix = row.key.len() - shared;
            match self.version {
                Version::V1 => 2 + 2 + suffix + 8 + 1 + 8 + 4 + row.value.len(),
                Version::V2 => {
                    let lengths = varint_len(shared as u32)
                        + varint_len(suffix as u32)
                        + varint_len(row.value.len() as u32);
                    lengths + suffix + row.value.len() + 8 + 1 + 8
                }
            }
        }

        fn fits(&self, row: &Row, shared: usize) -> bool {
            let own_offset = if self.version == Version::V2 && self.is_restart() {
                2
            } else {
                0
            };
            let len = 2
                + 2 * self.offsets.len()
                + self.body.len()
                + self.row_len(row, shared)
                + own_offset;
            self.rows == 0 || len <= BLOCK_SIZE
        }

        pub fn add(&mut self, row: &Row) -> bool {
            let shared = self.shared(&row.key);
            if !self.fits(row, shared) {
                return false;
            }
            match self.version {
                Version::V1 => self.add_v1(row, shared),
                Version::V2 => self.add_v2(row, shared),
            }
            self.rows += 1;
            true
        }

        fn add_v1(&mut self, row: &Row, shared: usize) {
            self.offsets.push(self.body.len() as u16);
            let suffix = &row.key[shared..];
            self.body.extend_from_slice(&(shared as u16).to_be_bytes());
            self.body
                .extend_from_slice(&(suffix.len() as u16).to_be_bytes());
            self.body.extend_from_slice(suffix);
            self.add_meta(row);
            self.body
                .extend_from_slice(&(row.value.len() as u32).to_be_bytes());
            self.body.extend_from_slice(&row.value);
            if self.rows == 0 {
                self.other = row.key.clone();
            }
        }

        fn add_v2(&mut self, row: &Row, shared: usize) {
            if self.is_restart() {
                self.offsets.push(self.body.len() as u16);
            }
            let suffix = &row.key[shared..];
            append_varint(&mut self.body, shared as u32);
            append_varint(&mut self.body, suffix.len() as u32);
            append_varint(&mut self.body, row.value.len() as u32);
            self.body.extend_from_slice(suffix);
            self.body.extend_from_slice(&row.value);
            self.add_meta(row);
            self.other.clear();
            self.other.extend_from_slice(&row.key);
        }

        fn add_meta(&mut self, row: &Row) {
            self.body.extend_from_slice(&row.seq.to_be_bytes());
            self.body.push(if row.is_operand {
                CREATED | OPERAND
            } else {
                CREATED
            });
            self.body.extend_from_slice(&row.create_ts.to_be_bytes());
        }

        pub fn encode(self) -> Vec<u8> {
            let mut bytes = self.body;
            for offset in &self.offsets {
                bytes.extend_from_slice(&offset.to_be_bytes());
            }
            bytes.extend_from_slice(&(self.offsets.len() as u16).to_be_bytes());
            bytes
        }
    }

    /// Bytes that are taken off the front; `None` where they end too early.
    pub struct Input<'a> {
        pub bytes: &'a [u8],
        pub at: usize,
    }

    impl<'a> Input<'a> {
        pub fn take(&mut self, len: usize) -> Option<&'a [u8]> {
            let end = self.at.checked_add(len)?;
            let taken = self.bytes.get(self.at..end)?;
            self.at = end;
            Some(taken)
        }

        fn u8(&mut self) -> Option<u8> {
            Some(self.take(1)?[0])
        }

        pub fn u16(&mut self) -> Option<u16> {
            Some(u16::from_be_bytes(self.take(2)?.try_into().ok()?))
        }

        pub fn u32(&mut self) -> Option<u32> {
            Some(u32::from_be_bytes(self.take(4)?.try_into().ok()?))
        }

        pub fn u64(&mut self) -> Option<u64> {
            Some(u64::from_be_bytes(self.take(8)?.try_into().ok()?))
        }

        fn varint(&mut self) -> Option<u32> {
            let mut value = 0u64;
            for group in 0..5 {
                let byte = self.u8()?;
                value |= u64::from(byte & 127) << (7 * group);
                if byte < 128 {
                    let shortest = byte != 0 || group == 0;
                    return u32::try_from(value).ok().filter(|_| shortest);
                }
            }
            None
        }

        fn stamp(&mut self, is_there: bool) -> Option<Option<i64>> {
            if is_there {
                Some(Some(self.u64()? as i64))
            } else {
                Some(None)
            }
        }
    }

    /// The front of another key, and the suffix.
    fn whole_key(other: &[u8], shared: usize, suffix: &[u8]) -> Option<Vec<u8>> {
        let front = other.get(..shared)?;
        let len = front.len() + suffix.len();
        if len == 0 || len > 65535 {
            return None;
        }
        let mut key = Vec::with_capacity(len);
        key.extend_from_slice(front);
        key.extend_from_slice(suffix);
        Some(key)
    }

    fn are_flags(flags: u8) -> bool {
        flags < 16 && flags & 9 != 9
    }

    fn read_v1<'a>(input: &mut Input<'a>, first: &[u8]) -> Option<ReadRow<'a>> {
        let shared = input.u16()? as usize;
        let suffix_len = input.u16()? as usize;
        let suffix = input.take(suffix_len)?;
        let seq = input.u64()?;
        let flags = input.u8().filter(|flags| are_flags(*flags))?;
        let expire_ts = input.stamp(flags & 2 != 0)?;
        let create_ts = input.stamp(flags & 4 != 0)?;
        let value = if flags & 1 == 0 {
            let len = input.u32()? as usize;
            input.take(len)?
        } else {
            &[]
        };
        let key = whole_key(first, shared, suffix)?;
        Some(ReadRow {
            key,
            value,
            seq,
            create_ts,
            expire_ts,
            flags,
        })
    }

    pub fn read_v2<'a>(input: &mut Input<'a>, previous: &[u8]) -> Option<ReadRow<'a>> {
        let shared = input.varint()? as usize;
        let suffix_len = input.varint()? as usize;
        let value_len = input.varint()? as usize;
        let suffix = input.take(suffix_len)?;
        let value = input.take(value_len)?;
        let seq = input.u64()?;
        let flags = input.u8().filter(|flags| are_flags(*flags))?;
        if flags & 1 != 0 && value_len > 0 {
            return None;
        }
        let expire_ts = input.stamp(flags & 2 != 0)?;
        let create_ts = input.stamp(flags & 4 != 0)?;
        let key = whole_key(previous, shared, suffix)?;
        Some(ReadRow {
            key,
            value,
            seq,
            create_ts,
            expire_ts,
            flags,
        })
    }

    /// The rows' part and the offsets, which begin at 0, rise, and stand in the rows' part.
    pub fn decode_block(bytes: &[u8]) -> Option<(&[u8], Vec<u16>)> {
        let count_at = bytes.len().checked_sub(2)?;
        let count = u16::from_be_bytes(bytes[count_at..].try_into().ok()?) as usize;
        let end = count_at.checked_sub(2 * count)?;
        let offsets: Vec<u16> = bytes[end..count_at]
            .chunks(2)
            .map(|pair| u16::from_be_bytes([pair[0], pair[1]]))
            .collect();
        let rise = offsets.windows(2).all(|pair| pair[0] < pair[1]);
        let within = offsets.last().is_some_and(|last| (*last as usize) < end);
        (rise && within && offsets[0] == 0).then_some((&bytes[..end], offsets))
    }

    /// Sums of what was read, so that nothing is left out as unused.
    #[derive(Default)]
    pub struct Sums {
        rows: u64,
        key_bytes: u64,
        value_bytes: u64,
        seqs: u64,
    }

    impl Sums {
        fn take(&mut self, row: &ReadRow) {
            self.rows += 1;
            self.key_bytes += row.key.len() as u64;
            self.value_bytes += row.value.len() as u64;
            self.seqs += row.seq;
            std::hint::black_box((row.create_ts, row.expire_ts, row.flags));
        }

        pub fn text(&self) -> String {
            format!(
                "{} rows, {} key bytes, {} value bytes, sequences {}",
                self.rows, self.key_bytes, self.value_bytes, self.seqs
            )
        }
    }

    pub fn walk_v1(body: &[u8], offsets: &[u16], sums: &mut Sums) -> Option<()> {
        let mut first: Vec<u8> = Vec::new();
        for (i, at) in offsets.iter().enumerate() {
            let end = offsets.get(i + 1).map_or(body.len(), |next| *next as usize);
            let mut input = Input {
                bytes: &body[..end],
                at: *at as usize,
            };
            let row = read_v1(&mut input, &first)?;
            if input.at != end {
                return None;
            }
            sums.take(&row);
            if i == 0 {
                first = row.key;
            }
        }
        Some(())
    }

    pub fn walk_v2(body: &[u8], offsets: &[u16], sums: &mut Sums) -> Option<()> {
        for (i, at) in offsets.iter().enumerate() {
            let is_last = i + 1 == offsets.len();
            let end = offsets.get(i + 1).map_or(body.len(), |next| *next as usize);
            let mut input = Input {
                bytes: &body[..end],
                at: *at as usize,
            };
            let mut previous: Vec<u8> = Vec::new();
            for n in 0..RESTART_INTERVAL {
                if is_last && n > 0 && input.at == end {
                    break;
                }
                let row = read_v2(&mut input, &previous)?;
                sums.take(&row);
                previous = row.key;
            }
            if input.at != end {
                return None;
            }
        }
        Some(())
    }

    /// All rows of a block of version 2, and `None` where it is damaged.
    pub fn rows_of_block<'a>(body: &'a [u8], offsets: &[u16]) -> Option<Vec<ReadRow<'a>>> {
        let mut rows: Vec<ReadRow> = Vec::new();
        for (i, at) in offsets.iter().enumerate() {
            let end = offsets.get(i + 1).map_or(body.len(), |next| *next as usize);
            let mut input = Input {
                bytes: &body[..end],
                at: *at as usize,
            };
            let mut previous: Vec<u8> = Vec::new();
            while input.at < end {
                let row = read_v2(&mut input, &previous)?;
                previous.clone_from(&row.key);
                rows.push(row);
            }
        }
        Some(rows)
    }

    /// Adds a key's rows at or below a sequence, newest first, to the first that is no operand, of a block of version 2. Gives whether
    /// that one was met, and `None` where the block is damaged.
    pub fn add_rows_of_key<'a>(
        body: &'a [u8],
        offsets: &[u16],
        key: &[u8],
        max_seq: u64,
        rows: &mut Vec<ReadRow<'a>>,
    ) -> Option<bool> {
        let begins_before = |at: &u16| {
            let mut input = Input {
                bytes: body,
                at: *at as usize,
            };
            read_v2(&mut input, &[]).is_some_and(|row| row.key.as_slice() < key)
        };
        let start = offsets.partition_point(begins_before).saturating_sub(1);
        let mut input = Input {
            bytes: body,
            at: offsets[start] as usize,
        };
        let mut previous: Vec<u8> = Vec::new();
        while input.at < body.len() {
            let row = read_v2(&mut input, &previous)?;
            match row.key.as_slice().cmp(key) {
                Ordering::Greater => break,
                Ordering::Equal if row.seq <= max_seq => {
                    previous.clone_from(&row.key);
                    let is_last = !row.is_operand();
                    rows.push(row);
                    if is_last {
                        return Some(true);
                    }
                }
                _ => previous = row.key,
            }
        }
        Some(false)
    }
}

/// Bloom filters of whole keys: how they are written, and how they are asked.
mod filter {
    use crate::block::{Input, Row};

    const NAME: &[u8] = b"_bf";
    const BITS_PER_KEY: usize = 10;
    const PROBES: u16 = 6;

    /// What SipHash keeps between words.
    struct Sip([u64; 4]);

    impl Sip {
        fn round(&mut self) {
            let [v0, v1, v2, v3] = &mut self.0;
            *v0 = v0.wrapping_add(*v1);
            *v2 = v2.wrapping_add(*v3);
            *v1 = v1.rotate_left(13) ^ *v0;
            *v3 = v3.rotate_left(16) ^ *v2;
            *v0 = v0.rotate_left(32).wrapping_add(*v3);
            *v2 = v2.wrapping_add(*v1);
            *v1 = v1.rotate_left(17) ^ *v2;
            *v3 = v3.rotate_left(21) ^ *v0;
            *v2 = v2.rotate_left(32);
        }

        fn take(&mut self, word: [u8; 8]) {
            let word = u64::from_le_bytes(word);
            self.0[3] ^= word;
            self.round();
            self.0[0] ^= word;
        }
    }

    /// SipHash-1-3 with both keys zero.
    pub fn filter_hash(key: &[u8]) -> u64 {
        let start = [b"somepseu", b"dorandom", b"lygenera", b"tedbytes"];
        let mut sip = Sip(start.map(|word| u64::from_be_bytes(*word)));
        let words = key.chunks_exact(8);
        let mut last = [0; 8];
        last[..words.remainder().len()].copy_from_slice(words.remainder());
        last[7] = key.len() as u8;
        for word in words {
            sip.take(word.try_into().unwrap());
        }
        sip.take(last);
        sip.0[2] ^= 255;
        (0..3).for_each(|_| sip.round());
        sip.0.into_iter().fold(0, |sum, word| sum ^ word)
    }

    /// So many bits of a hash, of the bits of so many bytes.
    fn probes(hash: u64, count: u16, bytes: usize) -> impl Iterator<Item = usize> {
        let bits = 8 * bytes as u64;
        let (mut probe, mut step) = ((hash & 0xffff_ffff) % bits, (hash >> 32) % bits);
        (0..u64::from(count)).map(move |i| {
            let bit = probe as usize;
            step = (step + i) % bits;
            probe = (probe + step) % bits;
            bit
        })
    }

    /// The part of a table that has the filter of the keys of these rows.
    pub fn encode_filters(rows: &[Row]) -> Vec<u8> {
        let mut bits = vec![0; (BITS_PER_KEY * rows.len()).div_ceil(8)];
        for row in rows {
            for bit in probes(filter_hash(&row.key), PROBES, bits.len()) {
                bits[bit / 8] |= 1 << (bit % 8);
            }
        }
        let mut part = 1u16.to_be_bytes().to_vec();
        part.extend_from_slice(&(NAME.len() as u16).to_be_bytes());
        part.extend_from_slice(NAME);
        part.extend_from_slice(&(2 + bits.len() as u64).to_be_bytes());
        part.extend_from_slice(&PROBES.to_be_bytes());
        part.append(&mut bits);
        part
    }

    /// Whether filters let a key of this hash through, and `None` where they are damaged.
    pub fn might_match(part: &[u8], hash: u64) -> Option<bool> {
        let mut input = Input { bytes: part, at: 0 };
        let mut is_let = true;
        for _ in 0..input.u16()? {
            let len = input.u16()? as usize;
            let name = input.take(len)?;
            let len = input.u64()? as usize;
            let filter = input.take(len)?;
            is_let = is_let && (name != NAME || is_held(filter, hash)?);
        }
        (input.at == part.len()).then_some(is_let)
    }

    fn is_held(filter: &[u8], hash: u64) -> Option<bool> {
        let (count, bits) = filter.split_first_chunk()?;
        let count = u16::from_be_bytes(*count);
        let is_set = |bit: usize| bits[bit / 8] >> (bit % 8) & 1 == 1;
        Some(!bits.is_empty() && probes(hash, count, bits.len()).all(is_set))
    }
}

/// Checksums and tables: how they are written, and how their parts are read.
mod table {
    use crate::block::{compute_prefix, Builder, Input, Row, Version};

    /// For each byte what is left of it after 8 bits, and after 8 bits for each byte that stands behind it.
    pub struct CrcTables([[u32; 256]; 16]);

    impl CrcTables {
        pub fn new() -> CrcTables {
            let mut tables = [[0u32; 256]; 16];
            for byte in 0..256 {
                let mut crc = byte as u32;
                for _ in 0..8 {
                    crc = if crc & 1 == 1 {
                        crc >> 1 ^ 0xedb8_8320
                    } else {
                        crc >> 1
                    };
                }
                tables[0][byte] = crc;
            }
            for byte in 0..256 {
                for k in 1..16 {
                    let crc = tables[k - 1][byte];
                    tables[k][byte] = crc >> 8 ^ tables[0][(crc & 255) as usize];
                }
            }
            CrcTables(tables)
        }

        /// The CRC-32 of the bytes: they are folded into later ones, and what that leaves is taken sixteen bytes a step.
        pub fn checksum(&self, bytes: &[u8]) -> u32 {
            let mut crc = u32::MAX;
            let mut rest = bytes;
            while rest.len() >= 512 {
                let groups = ((rest.len() - 304) / 16).min(256);
                let (now, later) = rest.split_at(16 * groups + 304);
                crc = self.round(crc, now, 16 * groups);
                rest = later;
            }
            let mut groups = rest.chunks_exact(16);
            for group in &mut groups {
                crc = self.sixteen_more(crc, group.try_into().unwrap());
            }
            for byte in groups.remainder() {
                crc = self.0[0][((crc ^ u32::from(*byte)) & 255) as usize] ^ crc >> 8;
            }
            !crc
        }

        fn round(&self, crc: u32, bytes: &[u8], folded: usize) -> u32 {
            let mut history = [0u8; 4608];
            history[..4].copy_from_slice(&crc.to_le_bytes());
            for at in (0..folded).step_by(16) {
                let group = folded_at(&history, bytes, at);
                history[at + 300..at + 316].copy_from_slice(&group);
            }
            (folded..bytes.len()).step_by(16).fold(0, |crc, at| {
                self.sixteen_more(crc, folded_at(&history, bytes, at))
            })
        }

        #[inline(always)]
        fn sixteen_more(&self, crc: u32, bytes: [u8; 16]) -> u32 {
            let [first, second] =
                [0, 8].map(|at| u64::from_le_bytes(bytes[at..at + 8].try_into().unwrap()));
            self.after_word(8, first ^ u64::from(crc)) ^ self.after_word(0, second)
        }

        #[inline(always)]
        fn after_word(&self, k: usize, word: u64) -> u32 {
            (0..8).fold(0, |sum, i| {
                sum ^ self.0[k + 7 - i][(word >> (8 * i) & 255) as usize]
            })
        }
    }

    #[inline(always)]
    fn folded_at(history: &[u8; 4608], bytes: &[u8], at: usize) -> [u8; 16] {
        let sixteen = |bytes: &[u8], at: usize| -> u128 {
            u128::from_le_bytes(bytes[at..at + 16].try_into().unwrap())
        };
        let past = [0, 89, 117, 155]
            .iter()
            .fold(0, |sum, distance| sum ^ sixteen(history, at + distance));
        (sixteen(bytes, at) ^ past).to_le_bytes()
    }

    /// A table as it grows.
    struct Table<'a> {
        crc: &'a CrcTables,
        version: Version,
        bytes: Vec<u8>,
        block: Builder,
        puts: u16,
        operands: u16,
        last_key: Vec<u8>,
        separator: Vec<u8>,
        index: Vec<u8>,
        block_counts: Vec<[u16; 3]>,
        all_puts: u64,
        all_operands: u64,
        key_bytes: u64,
        value_bytes: u64,
    }

    impl<'a> Table<'a> {
        fn new(crc: &'a CrcTables, version: Version) -> Table<'a> {
            Table {
                crc,
                version,
                bytes: Vec::new(),
                block: Builder::new(version),
                puts: 0,
                operands: 0,
                last_key: Vec::new(),
                separator: Vec::new(),
                index: Vec::new(),
                block_counts: Vec::new(),
                all_puts: 0,
                all_operands: 0,
                key_bytes: 0,
                value_bytes: 0,
            }
        }

        /// Appends a part and its checksum, and gives the section's place.
        fn seal(&mut self, part: &[u8]) -> (u64, u64) {
            let at = self.bytes.len() as u64;
            self.bytes.extend_from_slice(part);
            self.bytes
                .extend_from_slice(&self.crc.checksum(part).to_be_bytes());
            (at, part.len() as u64 + 4)
        }

        fn end_block(&mut self) {
            let block = std::mem::replace(&mut self.block, Builder::new(self.version)).encode();
            let (at, _) = self.seal(&block);
            self.index.extend_from_slice(&at.to_be_bytes());
            self.index
                .extend_from_slice(&(self.separator.len() as u16).to_be_bytes());
            self.index.extend_from_slice(&self.separator);
            self.block_counts.push([self.puts, 0, self.operands]);
            self.all_puts += u64::from(self.puts);
            self.all_operands += u64::from(self.operands);
            (self.puts, self.operands) = (0, 0);
        }

        fn add(&mut self, row: &Row) {
            if !self.block.add(row) {
                self.end_block();
                let shared = compute_prefix(&self.last_key, &row.key);
                self.separator = row.key[..row.key.len().min(shared + 1)].to_vec();
                self.block.add(row);
            } else if self.key_bytes == 0 {
                self.separator = row.key.clone();
            }
            if row.is_operand {
                self.operands += 1;
            } else {
                self.puts += 1;
            }
            self.key_bytes += row.key.len() as u64;
            self.value_bytes += row.value.len() as u64;
            self.last_key.clear();
            self.last_key.extend_from_slice(&row.key);
        }

        fn build(mut self, first_key: &[u8], filters: Option<Vec<u8>>) -> Vec<u8> {
            self.end_block();
            let behind_blocks = (self.bytes.len() as u64, 0);
            let filters_at = filters.map_or(behind_blocks, |part| self.seal(&part));
            let mut index = (self.block_counts.len() as u32).to_be_bytes().to_vec();
            index.append(&mut self.index);
            let index_at = self.seal(&index);
            let mut stats = Vec::new();
            let counts = [self.all_puts, 0, self.all_operands];
            for number in counts.into_iter().chain([self.key_bytes, self.value_bytes]) {
                stats.extend_from_slice(&number.to_be_bytes());
            }
            stats.extend_from_slice(&(self.block_counts.len() as u32).to_be_bytes());
            for count in self.block_counts.iter().flatten() {
                stats.extend_from_slice(&count.to_be_bytes());
            }
            let stats_at = self.seal(&stats);
            let number = if self.version == Version::V1 { 1u16 } else { 2 };
            let mut info = number.to_be_bytes().to_vec();
            for key in [first_key, &self.last_key.clone()] {
                info.push(1);
                info.extend_from_slice(&(key.len() as u16).to_be_bytes());
                info.extend_from_slice(key);
            }
            for (at, len) in [index_at, filters_at, stats_at] {
                info.extend_from_slice(&at.to_be_bytes());
                info.extend_from_slice(&len.to_be_bytes());
            }
            info.extend_from_slice(&[0, 1]);
            let (info_at, _) = self.seal(&info);
            self.bytes.extend_from_slice(&info_at.to_be_bytes());
            self.bytes.extend_from_slice(&number.to_be_bytes());
            self.bytes
        }
    }

    /// The table of these rows, with its part of filters where there is one.
    pub fn build_table(
        crc: &CrcTables,
        rows: &[Row],
        version: Version,
        filters: Option<Vec<u8>>,
    ) -> Vec<u8> {
        let mut table = Table::new(crc, version);
        for row in rows {
            table.add(row);
        }
        table.build(&rows[0].key, filters)
    }

    /// The part of a section whose checksum fits.
    pub fn open_section<'a>(crc: &CrcTables, section: &'a [u8]) -> Option<&'a [u8]> {
        let (part, sum) = section.split_at_checked(section.len().checked_sub(4)?)?;
        (crc.checksum(part).to_be_bytes() == sum).then_some(part)
    }

    /// Where the blocks begin, and the separators, which rise.
    pub fn read_index(part: &[u8]) -> Option<(Vec<usize>, Vec<&[u8]>)> {
        let mut input = Input { bytes: part, at: 0 };
        let (mut offsets, mut separators) = (Vec::new(), Vec::<&[u8]>::new());
        for _ in 0..input.u32()? {
            offsets.push(input.u64()? as usize);
            let len = input.u16()? as usize;
            let separator = input.take(len)?;
            if separators.last().is_some_and(|last| *last > separator) {
                return None;
            }
            separators.push(separator);
        }
        let rise = offsets.windows(2).all(|pair| pair[0] < pair[1]);
        (input.at == part.len() && rise).then_some((offsets, separators))
    }

    /// Where the filters, the index and the statistics begin. Where there are no filters the index stands behind the blocks.
    #[derive(Clone, Copy)]
    pub struct Places {
        pub filters_at: usize,
        pub index_at: usize,
        pub stats_at: usize,
    }

    /// The places in a table, which the writer keeps.
    pub fn places_of(bytes: &[u8]) -> Option<Places> {
        let footer = bytes.len().checked_sub(10)?;
        let places = footer.checked_sub(4 + 2 + 48)?;
        let mut input = Input {
            bytes: &bytes[places..],
            at: 0,
        };
        let index_at = input.u64()? as usize;
        input.take(8)?;
        let filters_at = input.u64()? as usize;
        input.take(8)?;
        let stats_at = input.u64()? as usize;
        Some(Places {
            filters_at,
            index_at,
            stats_at,
        })
    }
}

/// A store in plain Rust that answers the lines of the scripts of `scripts` as `slate` does with the word `op=max`: writes of one put
/// or one operand, begins, gets, scans without steps, in a range or behind a prefix, puts, commits and flushes. Any other line ends it,
/// and so does a key without a segment where there are segments, and one whose segment nests with another. No script scans operands.
mod script {
    use crate::block::{add_rows_of_key, decode_block, rows_of_block, Row, Version};
    use crate::filter::{encode_filters, filter_hash, might_match};
    use crate::scripts;
    use crate::table::{build_table, open_section, places_of, read_index, CrcTables, Places};
    use std::borrow::Cow;
    use std::cell::Cell;
    use std::cmp::{Ordering, Reverse};
    use std::collections::{BTreeMap, BTreeSet, BinaryHeap, VecDeque};
    use std::fs::{self, File};
    use std::io::{self, BufRead, BufReader, Read, Write};
    use std::mem;
    use std::ops::{Bound, RangeBounds};
    use std::os::unix::fs::FileExt;
    use std::path::{Path, PathBuf};
    use std::sync::{Mutex, MutexGuard};
    use std::thread;
    use std::time::Instant;

    /// How many rounds a thread does between two flushes.
    const FLUSH_INTERVAL: u64 = 64;

    /// How many bytes of a script are read at once.
    const PIECE: usize = 65536;

    /// Why a run ends early. The statuses are those of `slate`.
    #[derive(Clone, Copy)]
    pub enum Failure {
        Syntax = 3,
        Read = 5,
        Write = 6,
        Store = 7,
        Damage = 16,
    }

    use Failure::{Damage, Syntax};

    /// What the words behind a store set.
    #[derive(Clone, Copy)]
    pub struct Settings {
        has_filters: bool,
        has_segments: bool,
    }

    impl Settings {
        /// With filters, and without segments.
        fn new() -> Settings {
            Settings {
                has_filters: true,
                has_segments: false,
            }
        }

        /// The settings of these words, and nothing where one isn't known.
        pub fn read(words: &[&str]) -> Option<Settings> {
            let mut settings = Settings::new();
            for word in words {
                match *word {
                    "filter=none" => settings.has_filters = false,
                    "seg=colon" => settings.has_segments = true,
                    "op=max" => {}
                    _ => return None,
                }
            }
            Some(settings)
        }
    }

    /// Objects in memory, or the files of a folder.
    pub enum Store {
        Memory(BTreeMap<String, Vec<u8>>),
        Folder(PathBuf),
    }

    impl Store {
        /// The store that a word names, `-` or a folder.
        pub fn at(word: &str) -> Store {
            if word == "-" {
                Store::Memory(BTreeMap::new())
            } else {
                Store::Folder(word.into())
            }
        }

        fn put(&mut self, path: &str, bytes: Vec<u8>) -> io::Result<()> {
            match self {
                Store::Memory(objects) => {
                    objects.insert(path.to_string(), bytes);
                    Ok(())
                }
                Store::Folder(folder) => put_file(&folder.join(path), &bytes),
            }
        }

        fn read_range(&self, path: &str, start: usize, end: usize) -> io::Result<Cow<'_, [u8]>> {
            match self {
                Store::Memory(objects) => {
                    let range = objects.get(path).and_then(|object| object.get(start..end));
                    range
                        .map(Cow::Borrowed)
                        .ok_or(io::ErrorKind::NotFound.into())
                }
                Store::Folder(folder) => {
                    let mut bytes = vec![0; end - start];
                    File::open(folder.join(path))?.read_exact_at(&mut bytes, start as u64)?;
                    Ok(Cow::Owned(bytes))
                }
            }
        }
    }

    /// Writes beside the file and renames, so that a reader meets the whole file or none.
    fn put_file(target: &Path, bytes: &[u8]) -> io::Result<()> {
        if let Some(parent) = target.parent() {
            fs::create_dir_all(parent)?;
        }
        let beside = target.with_extension("sst.tmp");
        let mut file = File::create(&beside)?;
        file.write_all(bytes)?;
        file.sync_all()?;
        fs::rename(&beside, target)
    }

    /// What is kept of a table that was stored.
    struct StoredTable {
        path: String,
        first_key: Vec<u8>,
        last_key: Vec<u8>,
        places: Places,
    }

    impl StoredTable {
        /// Whether the key stands between the first and the last key of the table.
        fn encloses(&self, key: &[u8]) -> bool {
            self.first_key.as_slice() <= key && key <= self.last_key.as_slice()
        }

        /// Whether keys of the range can be in the table.
        fn meets(&self, (start, end): Range) -> bool {
            let (first, last) = (self.first_key.as_slice(), self.last_key.as_slice());
            (start, Bound::Unbounded).contains(last) && (Bound::Unbounded, end).contains(first)
        }
    }

    /// A row that a reader gets.
    #[derive(Clone)]
    struct Found {
        value: Vec<u8>,
        seq: u64,
        create_ts: i64,
    }

    #[derive(Clone, Copy)]
    enum Order {
        Up,
        Down,
    }

    /// A row that a scan meets.
    #[derive(Clone)]
    struct ScanRow {
        key: Vec<u8>,
        value: Vec<u8>,
        seq: u64,
        create_ts: i64,
    }

    /// What was written of a key: a value, or an operand.
    struct Written {
        value: Vec<u8>,
        is_operand: bool,
    }

    /// By which rows in memory are ordered: by key upwards, and the newest of a key first.
    type RowKey = (Vec<u8>, Reverse<u64>);

    /// The keys between two bounds.
    type Range<'a> = (Bound<&'a [u8]>, Bound<&'a [u8]>);

    /// The same, with keys of its own.
    type OwnRange = (Bound<Vec<u8>>, Bound<Vec<u8>>);

    /// The sequence that a transaction's own rows have before its commit.
    const OWN: u64 = u64::MAX;

    /// A transaction that is open.
    struct Open {
        begin: u64,
        is_serializable: bool,
        /// What it put.
        own: BTreeMap<Vec<u8>, Vec<u8>>,
        read_keys: Vec<Vec<u8>>,
        read_ranges: Vec<OwnRange>,
        /// What it did and saw, where a journal is kept.
        transcript: Vec<Step>,
    }

    /// One thing that a transaction did or saw. It is kept, and nothing asks for it.
    #[allow(dead_code)]
    enum Step {
        Get(Vec<u8>, Option<Found>),
        Scan(OwnRange),
        Next(Option<ScanRow>),
        Put(Vec<u8>, Vec<u8>),
    }

    /// A commit. It is kept, and nothing asks for it.
    #[allow(dead_code)]
    pub struct Commit {
        seq: Option<u64>,
        ops: Vec<(Vec<u8>, Vec<u8>)>,
        tracked: Vec<Vec<u8>>,
        transcript: Vec<Step>,
    }

    /// The commits, where they are kept.
    pub enum Journal {
        None,
        Kept(Vec<Commit>),
    }

    impl Journal {
        pub fn new() -> Journal {
            Journal::Kept(Vec::new())
        }

        fn is_kept(&self) -> bool {
            matches!(self, Journal::Kept(_))
        }

        /// Adds a commit, which is made only where it is kept.
        fn add(&mut self, commit: impl FnOnce() -> Commit) {
            if let Journal::Kept(commits) = self {
                commits.push(commit());
            }
        }
    }

    /// Rows in memory, or those of a table: what is left of a block, and where the blocks behind it begin and end.
    struct Source<'a> {
        rows: VecDeque<ScanRow>,
        table: Option<&'a StoredTable>,
        offsets: VecDeque<(usize, usize)>,
    }

    impl Source<'_> {
        /// The source of these rows, which rise.
        fn of_rows(mut rows: VecDeque<ScanRow>, order: Order) -> Self {
            turn(&mut rows, order);
            Source {
                rows,
                table: None,
                offsets: VecDeque::new(),
            }
        }
    }

    /// The next row of a source. The greatest comes first: by key in the order, and the newest of a key.
    struct Head {
        row: ScanRow,
        source: usize,
        order: Order,
    }

    impl Ord for Head {
        fn cmp(&self, other: &Head) -> Ordering {
            let keys = match self.order {
                Order::Up => other.row.key.cmp(&self.row.key),
                Order::Down => self.row.key.cmp(&other.row.key),
            };
            keys.then(self.row.seq.cmp(&other.row.seq))
        }
    }

    impl PartialOrd for Head {
        fn partial_cmp(&self, other: &Head) -> Option<Ordering> {
            Some(self.cmp(other))
        }
    }

    impl PartialEq for Head {
        fn eq(&self, other: &Head) -> bool {
            self.cmp(other) == Ordering::Equal
        }
    }

    impl Eq for Head {}

    /// Turns rows that rise by key into the order, the newest of a key first.
    fn turn(rows: &mut VecDeque<ScanRow>, order: Order) {
        if let Order::Down = order {
            rows.make_contiguous()
                .sort_by(|a, b| b.key.cmp(&a.key).then(b.seq.cmp(&a.seq)));
        }
    }

    fn append_row(text: &mut Vec<u8>, row: &ScanRow) {
        text.extend_from_slice(b" '");
        text.extend_from_slice(&row.key);
        text.extend_from_slice(b" '");
        text.extend_from_slice(&row.value);
        text.extend_from_slice(format!(" {} {} -", row.seq, row.create_ts).as_bytes());
    }

    /// All rows of a block's section, and `None` where it is damaged.
    fn rows_of_section(crc: &CrcTables, section: &[u8]) -> Option<VecDeque<ScanRow>> {
        let (body, offsets) = decode_block(open_section(crc, section)?)?;
        let rows = rows_of_block(body, &offsets)?;
        let rows = rows.into_iter().map(|row| ScanRow {
            value: row.value.to_vec(),
            seq: row.seq,
            create_ts: row.create_ts.unwrap_or(0),
            key: row.key,
        });
        Some(rows.collect())
    }

    fn read_order(token: &[u8]) -> Result<Order, Failure> {
        match token {
            b"asc" => Ok(Order::Up),
            b"desc" => Ok(Order::Down),
            _ => Err(Syntax),
        }
    }

    fn read_bound(token: &[u8]) -> Result<Bound<&[u8]>, Failure> {
        match token {
            b"*" => Ok(Bound::Unbounded),
            [b'i', key @ ..] => read_text(key).map(Bound::Included),
            [b'e', key @ ..] => read_text(key).map(Bound::Excluded),
            _ => Err(Syntax),
        }
    }

    /// The prefix of a key's segment, which ends with its first colon.
    fn segment_of(key: &[u8]) -> Option<&[u8]> {
        let colon = key.iter().position(|byte| *byte == b':')?;
        Some(&key[..=colon])
    }

    /// The keys that begin with a prefix.
    fn range_of_prefix(prefix: &[u8]) -> OwnRange {
        let end = match prefix.iter().rposition(|byte| *byte < u8::MAX) {
            Some(at) => {
                let mut past = prefix[..=at].to_vec();
                past[at] += 1;
                Bound::Excluded(past)
            }
            None => Bound::Unbounded,
        };
        (Bound::Included(prefix.to_vec()), end)
    }

    fn own_range((start, end): Range) -> OwnRange {
        (start.map(<[u8]>::to_vec), end.map(<[u8]>::to_vec))
    }

    fn slices_of((start, end): &OwnRange) -> Range<'_> {
        (
            start.as_ref().map(Vec::as_slice),
            end.as_ref().map(Vec::as_slice),
        )
    }

    /// Where the rows in memory of a range begin and end.
    fn bounds_of_rows((start, end): Range) -> (Bound<RowKey>, Bound<RowKey>) {
        let before = |key: &[u8]| (key.to_vec(), Reverse(u64::MAX));
        let behind = |key: &[u8]| (key.to_vec(), Reverse(0));
        let start = match start {
            Bound::Included(key) => Bound::Included(before(key)),
            Bound::Excluded(key) => Bound::Excluded(behind(key)),
            Bound::Unbounded => Bound::Unbounded,
        };
        let end = match end {
            Bound::Included(key) => Bound::Included(behind(key)),
            Bound::Excluded(key) => Bound::Excluded(before(key)),
            Bound::Unbounded => Bound::Unbounded,
        };
        (start, end)
    }

    struct Session {
        crc: CrcTables,
        store: Store,
        settings: Settings,
        /// How many bytes of tables were read, and by how many reads.
        read_so_far: Cell<(usize, usize)>,
        last: u64,
        names: BTreeMap<Vec<u8>, Open>,
        /// Of each key that was written while a transaction was open the sequence of its last write.
        writes: BTreeMap<Vec<u8>, u64>,
        journal: Journal,
        rows: BTreeMap<RowKey, Written>,
        /// The prefixes of all keys so far, where there are segments.
        segments: BTreeSet<Vec<u8>>,
        /// How many flushes had rows.
        flushes: u64,
        /// The newest last.
        tables: Vec<StoredTable>,
    }

    /// How many replies there were, and how many of them are a row that a get found.
    #[derive(Default)]
    struct Tally {
        replies: u64,
        hits: u64,
    }

    /// Answers each line of the source, and gives the status.
    pub fn run(
        store: Store,
        settings: Settings,
        journal: Journal,
        source: impl Read,
        sink: impl Write,
    ) -> i32 {
        let mut session = Session::new(store, settings, journal);
        let source = BufReader::with_capacity(PIECE, source);
        status_of(answer_lines(&mut session, source, sink).map(|_| ()))
    }

    /// Answers each line of the source, and writes one line that says how many bytes of tables were read, and by how many reads.
    pub fn run_for_reads(
        store: Store,
        settings: Settings,
        source: impl Read,
        sink: impl Write,
    ) -> i32 {
        let mut session = Session::new(store, settings, Journal::None);
        let source = BufReader::with_capacity(PIECE, source);
        let ended = answer_lines(&mut session, source, io::sink());
        status_of(ended.and_then(|_| session.write_reads(sink)))
    }

    /// Makes a script of so many rounds from the seed, answers it in memory, and writes one line that says how many replies there
    /// were, the last sequence, and how many gets found a row.
    pub fn run_generated(rounds: &str, seed: &str, sink: impl Write) -> i32 {
        match (rounds.parse(), seed.parse()) {
            (Ok(rounds), Ok(seed)) => status_of(answer_generated(rounds, seed, sink)),
            _ => 2,
        }
    }

    fn status_of(ended: Result<(), Failure>) -> i32 {
        match ended {
            Ok(()) => 0,
            Err(failure) => failure as i32,
        }
    }

    fn answer_generated(rounds: u32, seed: u64, mut sink: impl Write) -> Result<(), Failure> {
        let script = scripts::generate(rounds, seed).ok_or(Failure::Write)?;
        let mut session = Session::new(Store::at("-"), Settings::new(), Journal::new());
        let Tally { replies, hits } = answer_lines(&mut session, script.as_bytes(), io::sink())?;
        let committed = session.last;
        writeln!(sink, "replies {replies} committed {committed} hits {hits}")
            .map_err(|_| Failure::Write)
    }

    /// How many commits of a thread were refused, and how many of the gets of its commits found a row.
    #[derive(Default)]
    struct Shared {
        conflicts: u64,
        hits: u64,
    }

    /// So many threads share so many rounds, as those of `slate_bench threads` do, on one session behind one mutex, which each
    /// call takes. Gives what they did, and how long they took.
    pub fn share_rounds(threads: u64, rounds: u64) -> Option<(String, u128)> {
        let mut settings = Settings::new();
        settings.has_filters = false;
        let session = Mutex::new(Session::new(Store::at("-"), settings, Journal::new()));
        let start = Instant::now();
        let work = |place: u64| {
            let own = rounds / threads + u64::from(place < rounds % threads);
            do_rounds(&session, place, own)
        };
        let done = thread::scope(|scope| {
            let handles: Vec<_> = (0..threads)
                .map(|place| scope.spawn(move || work(place)))
                .collect();
            handles
                .into_iter()
                .map(|handle| handle.join().ok()?.ok())
                .collect::<Option<Vec<Shared>>>()
        })?;
        let nanos = start.elapsed().as_nanos();
        let conflicts: u64 = done.iter().map(|shared| shared.conflicts).sum();
        let hits: u64 = done.iter().map(|shared| shared.hits).sum();
        let text = format!("{rounds} rounds, {conflicts} conflicts, {hits} hits");
        Some((text, nanos))
    }

    fn do_rounds(session: &Mutex<Session>, place: u64, rounds: u64) -> Result<Shared, Failure> {
        let mut shared = Shared::default();
        let name = format!("t{place}");
        let mut drawn = place;
        for done in 0..rounds {
            let read = scripts::drawn(drawn);
            drawn = scripts::drawn(read);
            let read = format!("k{:03}", scripts::key_number(read));
            let written = format!("k{:03}", scripts::key_number(drawn));
            let value = format!("t{place:02}v{done:08}");
            while !is_committed(session, &name, [&read, &written, &value], &mut shared)? {}
            if done % FLUSH_INTERVAL == FLUSH_INTERVAL - 1 {
                locked(session)?.flush()?;
            }
        }
        Ok(shared)
    }

    /// Whether an attempt at a round commits.
    fn is_committed(
        session: &Mutex<Session>,
        name: &str,
        [read, written, value]: [&str; 3],
        shared: &mut Shared,
    ) -> Result<bool, Failure> {
        locked(session)?.begin(name, true)?;
        let found = locked(session)?.get(name, read.as_bytes())?;
        locked(session)?.put(name, written.as_bytes(), value.as_bytes())?;
        let ended = locked(session)?.commit(name)?;
        if ended.starts_with(b"refused ") {
            shared.conflicts += 1;
            return Ok(false);
        }
        shared.hits += u64::from(found.starts_with(b"row "));
        Ok(true)
    }

    fn locked(session: &Mutex<Session>) -> Result<MutexGuard<'_, Session>, Failure> {
        session.lock().map_err(|_| Damage)
    }

    fn answer_lines(
        session: &mut Session,
        mut source: impl BufRead,
        mut sink: impl Write,
    ) -> Result<Tally, Failure> {
        let mut tally = Tally::default();
        let mut line = Vec::new();
        while source
            .read_until(b'\n', &mut line)
            .map_err(|_| Failure::Read)?
            > 0
        {
            let reply = session.answer(line.strip_suffix(b"\n").unwrap_or(&line))?;
            tally.replies += 1;
            tally.hits += u64::from(reply.starts_with(b"row "));
            sink.write_all(&reply).map_err(|_| Failure::Write)?;
            line.clear();
        }
        Ok(tally)
    }

    impl Session {
        fn new(store: Store, settings: Settings, journal: Journal) -> Session {
            let crc = CrcTables::new();
            Session {
                crc,
                store,
                settings,
                read_so_far: Cell::new((0, 0)),
                last: 0,
                names: BTreeMap::new(),
                writes: BTreeMap::new(),
                journal,
                rows: BTreeMap::new(),
                segments: BTreeSet::new(),
                flushes: 0,
                tables: Vec::new(),
            }
        }

        fn write_reads(&self, mut sink: impl Write) -> Result<(), Failure> {
            let (bytes, reads) = self.read_so_far.get();
            writeln!(sink, "read {bytes} bytes of tables by {reads} reads")
                .map_err(|_| Failure::Write)
        }

        fn answer(&mut self, line: &[u8]) -> Result<Vec<u8>, Failure> {
            let tokens: Vec<&[u8]> = line.split(|byte| *byte == b' ').collect();
            match tokens.as_slice() {
                [b"write", b"put", key, value] => {
                    self.write(read_key(key)?, read_text(value)?, false)
                }
                [b"write", b"merge", key, value] => {
                    self.write(read_key(key)?, read_text(value)?, true)
                }
                [b"begin", name, b"si"] => self.begin(read_name(name)?, false),
                [b"begin", name, b"ssi"] => self.begin(read_name(name)?, true),
                [b"get", name, key] => self.get(read_name(name)?, read_text(key)?),
                [b"scan", name, order, start, end] => {
                    let range = (read_bound(start)?, read_bound(end)?);
                    self.scan(read_name(name)?, read_order(order)?, range)
                }
                [b"prefix", name, order, prefix, b"*", b"*"] => {
                    let range = range_of_prefix(read_text(prefix)?);
                    self.scan(read_name(name)?, read_order(order)?, slices_of(&range))
                }
                [b"put", name, key, value] => {
                    self.put(read_name(name)?, read_key(key)?, read_text(value)?)
                }
                [b"commit", name] => self.commit(read_name(name)?),
                [b"flush"] => self.flush(),
                _ => Err(Syntax),
            }
        }

        fn write(
            &mut self,
            key: &[u8],
            value: &[u8],
            is_operand: bool,
        ) -> Result<Vec<u8>, Failure> {
            self.record_segment(key)?;
            self.last += 1;
            let written = Written {
                value: value.to_vec(),
                is_operand,
            };
            self.rows
                .insert((key.to_vec(), Reverse(self.last)), written);
            if !self.names.is_empty() {
                self.writes.insert(key.to_vec(), self.last);
            }
            self.journal.add(|| Commit {
                seq: Some(self.last),
                ops: vec![(key.to_vec(), value.to_vec())],
                tracked: vec![key.to_vec()],
                transcript: Vec::new(),
            });
            Ok(format!("written {}\n", self.last).into_bytes())
        }

        /// Where there are segments, tests the key's prefix against its neighbours among those so far, which don't nest, and records it.
        fn record_segment(&mut self, key: &[u8]) -> Result<(), Failure> {
            if !self.settings.has_segments {
                return Ok(());
            }
            let prefix = segment_of(key).ok_or(Syntax)?;
            if self.segments.contains(prefix) {
                return Ok(());
            }
            let (from, to) = (Bound::Excluded(prefix), Bound::Unbounded);
            let mut before = self.segments.range::<[u8], _>((to, from));
            let mut behind = self.segments.range::<[u8], _>((from, to));
            let is_within = before.next_back().is_some_and(|p| prefix.starts_with(p));
            if is_within || behind.next().is_some_and(|p| p.starts_with(prefix)) {
                return Err(Syntax);
            }
            self.segments.insert(prefix.to_vec());
            Ok(())
        }

        fn begin(&mut self, name: &str, is_serializable: bool) -> Result<Vec<u8>, Failure> {
            let open = Open {
                begin: self.last,
                is_serializable,
                own: BTreeMap::new(),
                read_keys: Vec::new(),
                read_ranges: Vec::new(),
                transcript: Vec::new(),
            };
            self.names.insert(name.into(), open);
            Ok(format!("begun {name} {}\n", self.last).into_bytes())
        }

        fn open(&self, name: &str) -> Result<&Open, Failure> {
            self.names.get(name.as_bytes()).ok_or(Syntax)
        }

        fn open_mut(&mut self, name: &str) -> Result<&mut Open, Failure> {
            self.names.get_mut(name.as_bytes()).ok_or(Syntax)
        }

        fn get(&mut self, name: &str, key: &[u8]) -> Result<Vec<u8>, Failure> {
            let open = self.open(name)?;
            let row = match open.own.get(key) {
                Some(value) => Some(Found {
                    value: value.clone(),
                    seq: OWN,
                    create_ts: 0,
                }),
                None => self.find(key, open.begin)?,
            };
            let reply = match &row {
                Some(row) => row_line(key, row),
                None => b"none\n".to_vec(),
            };
            let is_kept = self.journal.is_kept();
            let open = self.open_mut(name)?;
            if open.is_serializable {
                open.read_keys.push(key.to_vec());
            }
            if is_kept {
                open.transcript.push(Step::Get(key.to_vec(), row));
            }
            Ok(reply)
        }

        /// The rows of the range that are seen from where a name began, and its own above them: of each key the newest of the rows
        /// in memory and in tables, which are merged.
        fn scan(&mut self, name: &str, order: Order, range: Range) -> Result<Vec<u8>, Failure> {
            let open = self.open(name)?;
            let is_kept = self.journal.is_kept();
            let mut sources = self.sources(open, order, range)?;
            let mut heads = BinaryHeap::new();
            for source in 0..sources.len() {
                heads.extend(self.next_head(&mut sources, source, order)?);
            }
            let (mut count, mut text, mut last) = (0u64, Vec::new(), Vec::new());
            let mut steps = Vec::new();
            while let Some(Head { row, source, .. }) = heads.pop() {
                heads.extend(self.next_head(&mut sources, source, order)?);
                let is_seen = row.seq <= open.begin || row.seq == OWN;
                if is_seen && range.contains(row.key.as_slice()) && (count == 0 || row.key != last)
                {
                    count += 1;
                    append_row(&mut text, &row);
                    if is_kept {
                        steps.push(Step::Next(Some(row.clone())));
                    }
                    last = row.key;
                }
            }
            let open = self.open_mut(name)?;
            if open.is_serializable {
                open.read_ranges.push(own_range(range));
            }
            if is_kept {
                open.transcript.push(Step::Scan(own_range(range)));
                open.transcript.append(&mut steps);
                open.transcript.push(Step::Next(None));
            }
            let mut reply = format!("rows {count}").into_bytes();
            reply.append(&mut text);
            reply.push(b'\n');
            Ok(reply)
        }

        fn put(&mut self, name: &str, key: &[u8], value: &[u8]) -> Result<Vec<u8>, Failure> {
            let is_kept = self.journal.is_kept();
            let open = self.open_mut(name)?;
            open.own.insert(key.to_vec(), value.to_vec());
            if is_kept {
                open.transcript
                    .push(Step::Put(key.to_vec(), value.to_vec()));
            }
            Ok(b"ok\n".to_vec())
        }

        fn commit(&mut self, name: &str) -> Result<Vec<u8>, Failure> {
            let before = self.least_begin();
            let open = self.names.remove(name.as_bytes()).ok_or(Syntax)?;
            let reply = match self.newest_conflict(&open) {
                Some(seq) => format!("refused TransactionConflict {seq}\n"),
                None => match self.commit_own(open)? {
                    Some(seq) => format!("committed {seq}\n"),
                    None => "committed -\n".into(),
                },
            };
            self.prune(before);
            Ok(reply.into_bytes())
        }

        /// Commits what a transaction put, which has ended, and gives the sequence, where it put something.
        fn commit_own(&mut self, open: Open) -> Result<Option<u64>, Failure> {
            let seq = (!open.own.is_empty()).then_some(self.last + 1);
            self.last = seq.unwrap_or(self.last);
            for (key, value) in &open.own {
                self.record_segment(key)?;
                let written = Written {
                    value: value.clone(),
                    is_operand: false,
                };
                self.rows.insert((key.clone(), Reverse(self.last)), written);
                if !self.names.is_empty() {
                    self.writes.insert(key.clone(), self.last);
                }
            }
            self.journal.add(|| Commit {
                seq,
                tracked: open.own.keys().cloned().collect(),
                ops: open.own.into_iter().collect(),
                transcript: open.transcript,
            });
            Ok(seq)
        }

        /// The greatest sequence since a transaction's begin of a write of a key that it wrote or read.
        fn newest_conflict(&self, open: &Open) -> Option<u64> {
            let of_keys = open
                .own
                .keys()
                .chain(&open.read_keys)
                .filter_map(|key| self.writes.get(key));
            let of_ranges = open
                .read_ranges
                .iter()
                .flat_map(|range| self.writes.range::<[u8], _>(slices_of(range)))
                .map(|(_, seq)| seq);
            let later = of_keys.chain(of_ranges).filter(|seq| **seq > open.begin);
            later.max().copied()
        }

        fn least_begin(&self) -> Option<u64> {
            self.names.values().map(|open| open.begin).min()
        }

        /// Forgets the writes that no open transaction can conflict with, where the least begin was another one before.
        fn prune(&mut self, before: Option<u64>) {
            match self.least_begin() {
                None => self.writes.clear(),
                least if least == before => {}
                Some(least) => self.writes.retain(|_, seq| *seq > least),
            }
        }

        /// A transaction's own rows of a range, those in memory, and each table that has some, with its index read. Rows of a table
        /// may stand outside the range.
        fn sources(
            &self,
            open: &Open,
            order: Order,
            range: Range,
        ) -> Result<Vec<Source<'_>>, Failure> {
            let own = open
                .own
                .range::<[u8], _>(range)
                .map(|(key, value)| ScanRow {
                    key: key.clone(),
                    value: value.clone(),
                    seq: OWN,
                    create_ts: 0,
                });
            let memory =
                self.rows
                    .range(bounds_of_rows(range))
                    .map(|((key, Reverse(seq)), written)| ScanRow {
                        key: key.clone(),
                        value: written.value.clone(),
                        seq: *seq,
                        create_ts: 0,
                    });
            let mut sources = vec![
                Source::of_rows(own.collect(), order),
                Source::of_rows(memory.collect(), order),
            ];
            for table in self.tables.iter().rev().filter(|table| table.meets(range)) {
                let places = table.places;
                let index = self.read(&table.path, places.index_at, places.stats_at)?;
                let (offsets, separators) = open_section(&self.crc, &index)
                    .and_then(read_index)
                    .ok_or(Damage)?;
                let first = match range.0 {
                    Bound::Unbounded => 0,
                    Bound::Included(key) | Bound::Excluded(key) => separators
                        .partition_point(|separator| *separator < key)
                        .saturating_sub(1),
                };
                let end = match range.1 {
                    Bound::Unbounded => offsets.len(),
                    Bound::Included(key) | Bound::Excluded(key) => {
                        separators.partition_point(|separator| *separator <= key)
                    }
                };
                let ends = offsets.iter().skip(1).copied();
                let ends = ends.chain([places.filters_at]);
                let blocks = offsets.iter().copied().zip(ends);
                sources.push(Source {
                    rows: VecDeque::new(),
                    table: Some(table),
                    offsets: blocks.take(end).skip(first).collect(),
                });
            }
            Ok(sources)
        }

        /// The next row of a source, for which it reads its next block where it has none left. Downwards a key whose rows lie in two
        /// blocks would come by its older rows first: no script scans such a table.
        fn next_head(
            &self,
            sources: &mut [Source],
            source: usize,
            order: Order,
        ) -> Result<Option<Head>, Failure> {
            let from = &mut sources[source];
            if let (true, Some(table)) = (from.rows.is_empty(), from.table) {
                let block = match order {
                    Order::Up => from.offsets.pop_front(),
                    Order::Down => from.offsets.pop_back(),
                };
                if let Some((start, end)) = block {
                    let section = self.read(&table.path, start, end)?;
                    from.rows = rows_of_section(&self.crc, &section).ok_or(Damage)?;
                    turn(&mut from.rows, order);
                }
            }
            let row = from.rows.pop_front();
            Ok(row.map(|row| Head { row, source, order }))
        }

        fn flush(&mut self) -> Result<Vec<u8>, Failure> {
            if !self.rows.is_empty() {
                let barrier = self.least_begin().unwrap_or(self.last);
                let rows = rows_of_flush(mem::take(&mut self.rows), barrier);
                self.flushes += 1;
                self.store_tables(&rows)?;
            }
            Ok(format!("flushed {}\n", self.last).into_bytes())
        }

        /// Stores the rows of a flush, as one table or, where there are segments, as one for each.
        fn store_tables(&mut self, rows: &[Row]) -> Result<(), Failure> {
            let is_one = !self.settings.has_segments;
            let of_one = |a: &Row, b: &Row| is_one || segment_of(&a.key) == segment_of(&b.key);
            let tables = rows.chunk_by(of_one).enumerate();
            tables
                .map(|(place, rows)| self.store_table(place, rows))
                .collect()
        }

        fn store_table(&mut self, place: usize, rows: &[Row]) -> Result<(), Failure> {
            let filters = self.settings.has_filters.then(|| encode_filters(rows));
            let bytes = build_table(&self.crc, rows, Version::V2, filters);
            let places = places_of(&bytes).ok_or(Damage)?;
            let id = u128::from(self.flushes) << 64 | place as u128;
            let path = format!("db/compacted/{id:032x}.sst");
            self.store.put(&path, bytes).map_err(|_| Failure::Store)?;
            let first_key = rows[0].key.clone();
            let last_key = rows[rows.len() - 1].key.clone();
            self.tables.push(StoredTable {
                path,
                first_key,
                last_key,
                places,
            });
            Ok(())
        }

        /// What the rows of a key at or below a sequence fold to.
        fn find(&self, key: &[u8], at: u64) -> Result<Option<Found>, Failure> {
            let mut rows = Vec::new();
            let behind = self.rows.range((key.to_vec(), Reverse(at))..);
            for ((_, Reverse(seq)), written) in behind.take_while(|row| row.0 .0 == key) {
                rows.push(Found {
                    value: written.value.clone(),
                    seq: *seq,
                    create_ts: 0,
                });
                if !written.is_operand {
                    return Ok(folded(rows));
                }
            }
            let hash = filter_hash(key);
            for table in self.tables.iter().rev() {
                let may_hold = table.encloses(key) && self.is_let_through(table, hash)?;
                if may_hold && self.add_rows_of_table(table, key, at, &mut rows)? {
                    break;
                }
            }
            Ok(folded(rows))
        }

        /// Whether the filters of a table, which are read where there are some, let a key of this hash through.
        fn is_let_through(&self, table: &StoredTable, hash: u64) -> Result<bool, Failure> {
            let Places {
                filters_at,
                index_at,
                ..
            } = table.places;
            if filters_at == index_at {
                return Ok(true);
            }
            let section = self.read(&table.path, filters_at, index_at)?;
            open_section(&self.crc, &section)
                .and_then(|part| might_match(part, hash))
                .ok_or(Damage)
        }

        /// Adds a key's rows at or below a sequence, newest first, to the first that is no operand, of a table that may hold it: its
        /// index is read, and the blocks that can hold the key. Gives whether that one was met.
        fn add_rows_of_table(
            &self,
            table: &StoredTable,
            key: &[u8],
            at: u64,
            rows: &mut Vec<Found>,
        ) -> Result<bool, Failure> {
            let places = table.places;
            let index = self.read(&table.path, places.index_at, places.stats_at)?;
            let (offsets, separators) = open_section(&self.crc, &index)
                .and_then(read_index)
                .ok_or(Damage)?;
            let start_of = |block: usize| offsets.get(block).copied().unwrap_or(places.filters_at);
            let first = separators
                .partition_point(|separator| *separator < key)
                .saturating_sub(1);
            let end = separators
                .partition_point(|separator| *separator <= key)
                .max(first);
            let start = start_of(first);
            let sections = self.read(&table.path, start, start_of(end))?;
            for block in first..end {
                let section = &sections[start_of(block) - start..start_of(block + 1) - start];
                if add_rows_of_section(&self.crc, section, key, at, rows).ok_or(Damage)? {
                    return Ok(true);
                }
            }
            Ok(false)
        }

        fn read(&self, path: &str, start: usize, end: usize) -> Result<Cow<'_, [u8]>, Failure> {
            let (bytes, reads) = self.read_so_far.get();
            self.read_so_far.set((bytes + end - start, reads + 1));
            self.store
                .read_range(path, start, end)
                .map_err(|_| Failure::Store)
        }
    }

    /// What rows of a key fold to, of which all but the last are operands: the greatest value, and the sequence of the first.
    fn folded(rows: Vec<Found>) -> Option<Found> {
        let seq = rows.first()?.seq;
        let create_ts = rows.iter().map(|row| row.create_ts).max()?;
        let value = rows.into_iter().map(|row| row.value).max()?;
        Some(Found {
            value,
            seq,
            create_ts,
        })
    }

    /// Of each key the rows above the barrier, and the fold of the others.
    fn rows_of_flush(rows: BTreeMap<RowKey, Written>, barrier: u64) -> Vec<Row> {
        let mut kept: Vec<Row> = Vec::new();
        for ((key, Reverse(seq)), written) in rows {
            let newer = kept
                .last_mut()
                .filter(|newer| newer.seq <= barrier && newer.key == key);
            match newer {
                Some(newer) if newer.is_operand => {
                    newer.value = mem::take(&mut newer.value).max(written.value);
                    newer.is_operand = written.is_operand;
                }
                Some(_) => {}
                None => kept.push(Row {
                    key,
                    value: written.value,
                    is_operand: written.is_operand,
                    seq,
                    create_ts: 0,
                }),
            }
        }
        kept
    }

    /// Adds a key's rows at or below a sequence, newest first, to the first that is no operand, of a block's section. Gives whether that
    /// one was met, and `None` where the section is damaged.
    fn add_rows_of_section(
        crc: &CrcTables,
        section: &[u8],
        key: &[u8],
        at: u64,
        rows: &mut Vec<Found>,
    ) -> Option<bool> {
        let (body, offsets) = decode_block(open_section(crc, section)?)?;
        let mut read = Vec::new();
        let is_whole = add_rows_of_key(body, &offsets, key, at, &mut read)?;
        rows.extend(read.into_iter().map(|row| Found {
            value: row.value.to_vec(),
            seq: row.seq,
            create_ts: row.create_ts.unwrap_or(0),
        }));
        Some(is_whole)
    }

    fn read_name(token: &[u8]) -> Result<&str, Failure> {
        let is_name =
            (1..=64).contains(&token.len()) && token.iter().all(u8::is_ascii_alphanumeric);
        std::str::from_utf8(token)
            .ok()
            .filter(|_| is_name)
            .ok_or(Syntax)
    }

    fn read_text(token: &[u8]) -> Result<&[u8], Failure> {
        token
            .strip_prefix(b"'")
            .filter(|text| text.iter().all(u8::is_ascii_graphic))
            .ok_or(Syntax)
    }

    fn read_key(token: &[u8]) -> Result<&[u8], Failure> {
        read_text(token).and_then(|key| {
            if (1..=65535).contains(&key.len()) {
                Ok(key)
            } else {
                Err(Syntax)
            }
        })
    }

    fn row_line(key: &[u8], row: &Found) -> Vec<u8> {
        let mut line = b"row '".to_vec();
        line.extend_from_slice(key);
        line.extend_from_slice(b" '");
        line.extend_from_slice(&row.value);
        line.extend_from_slice(format!(" {} {} -\n", row.seq, row.create_ts).as_bytes());
        line
    }
}

/// Lines of a program, answered one by one.
mod lines {
    use std::io::{BufRead, BufReader, Read, Write};

    /// How many bytes of lines are read at once.
    const PIECE: usize = 65536;

    /// Writes the reply to each line of the source that is no comment and not empty, and gives the status: 3 at a line that has none.
    pub fn answer_each(
        source: impl Read,
        mut sink: impl Write,
        mut reply_to: impl FnMut(&[u8]) -> Option<Vec<u8>>,
    ) -> i32 {
        let mut source = BufReader::with_capacity(PIECE, source);
        let mut line = Vec::new();
        loop {
            line.clear();
            match source.read_until(b'\n', &mut line) {
                Ok(0) => return 0,
                Ok(_) => {}
                Err(_) => return 5,
            }
            let line = line.strip_suffix(b"\n").unwrap_or(&line);
            if line.first().is_none_or(|byte| *byte == b'#') {
                continue;
            }
            let Some(reply) = reply_to(line) else {
                return 3;
            };
            if sink.write_all(&reply).is_err() {
                return 6;
            }
        }
    }
}

/// Accounts and stock: lines of orders, answered from a map of amounts, with a journal of all orders and what they read.
mod stock {
    use crate::lines::answer_each;
    use std::collections::BTreeMap;
    use std::io::{Read, Write};

    /// What an order read or put. It is kept, and nothing asks for it.
    #[allow(dead_code)]
    enum Step {
        Get(Vec<u8>, Option<[u8; 8]>),
        Put(Vec<u8>, [u8; 8]),
    }

    type Event = crate::journal::Event<(Vec<u8>, [u8; 8]), Step>;

    /// The amounts, under their keys and sequences, as a store keeps them that was never flushed.
    #[derive(Default)]
    struct Books {
        amounts: BTreeMap<(Vec<u8>, std::cmp::Reverse<u64>), [u8; 8]>,
        seq: u64,
        ids: u64,
        journal: Vec<Event>,
    }

    enum Refusal {
        Syntax,
        Said(String),
    }

    use Refusal::{Said, Syntax};

    /// Answers each line of the source, and gives the status.
    pub fn run(source: impl Read, sink: impl Write) -> i32 {
        let mut books = Books::default();
        answer_each(source, sink, |line| match books.answer(line) {
            Ok(reply) => Some(reply.into_bytes()),
            Err(Said(why)) => Some(format!("refused {why}\n").into_bytes()),
            Err(Syntax) => None,
        })
    }

    fn balance_key(asset: &[u8], name: &[u8]) -> Vec<u8> {
        [b"b:", asset, b":", name].concat()
    }

    fn issued_key(asset: &[u8]) -> Vec<u8> {
        [b"i:", asset].concat()
    }

    fn name(token: &[u8]) -> Result<&[u8], Refusal> {
        let is_name = (1..=32).contains(&token.len())
            && (token.iter()).all(|byte| byte.is_ascii_lowercase() || byte.is_ascii_digit());
        if is_name {
            Ok(token)
        } else {
            Err(Syntax)
        }
    }

    fn number(token: &[u8]) -> Result<u64, Refusal> {
        let text = std::str::from_utf8(token).map_err(|_| Syntax)?;
        let number: u64 = text.parse().map_err(|_| Syntax)?;
        if number.to_string() == text {
            Ok(number)
        } else {
            Err(Syntax)
        }
    }

    fn taken(key: &[u8], has: u64, needs: u64) -> Result<u64, Refusal> {
        has.checked_sub(needs).ok_or_else(|| {
            Said(format!("NotEnough {} {has} {needs}", String::from_utf8_lossy(key)))
        })
    }

    fn added(has: u64, more: u64) -> Result<u64, Refusal> {
        has.checked_add(more).ok_or_else(|| Said("TooMuch".to_owned()))
    }

    impl Books {
        fn answer(&mut self, line: &[u8]) -> Result<String, Refusal> {
            let tokens: Vec<&[u8]> = line.split(|byte| *byte == b' ').collect();
            match tokens.as_slice() {
                [b"issue", asset, holder, amount] => {
                    let (asset, holder, amount) = (name(asset)?, name(holder)?, number(amount)?);
                    let keys = vec![issued_key(asset), balance_key(asset, holder)];
                    self.order(keys, |_, has| {
                        if has[0] > 0 {
                            let asset = String::from_utf8_lossy(asset);
                            return Err(Said(format!("AlreadyIssued {asset}")));
                        }
                        Ok(vec![amount, added(has[1], amount)?])
                    })
                }
                [b"pay", asset, from, to, amount] => {
                    let (asset, from, to) = (name(asset)?, name(from)?, name(to)?);
                    let amount = number(amount)?;
                    if from == to {
                        return Err(Said("SameName".to_owned()));
                    }
                    let keys = vec![balance_key(asset, from), balance_key(asset, to)];
                    self.order(keys, |keys, has| {
                        let left = taken(&keys[0], has[0], amount)?;
                        Ok(vec![left, added(has[1], amount)?])
                    })
                }
                [b"total", asset] => Ok(self.total(name(asset)?)),
                _ => Err(Syntax),
            }
        }

        /// Reads the amounts at the keys, and commits those that are made of them.
        fn order(
            &mut self,
            keys: Vec<Vec<u8>>,
            made: impl FnOnce(&[Vec<u8>], &[u64]) -> Result<Vec<u64>, Refusal>,
        ) -> Result<String, Refusal> {
            let id = self.ids;
            self.ids += 1;
            self.journal.push(Event::Begin { id, seq: self.seq });
            let mut transcript = Vec::new();
            let mut has = Vec::new();
            for key in &keys {
                let found = self.amount(key);
                has.push(found.map_or(0, u64::from_be_bytes));
                transcript.push(Step::Get(key.clone(), found));
            }
            let new = match made(&keys, &has) {
                Ok(new) => new,
                Err(refusal) => {
                    self.journal.push(Event::End { id });
                    return Err(refusal);
                }
            };
            self.seq += 1;
            let mut ops = Vec::new();
            for (key, amount) in keys.iter().zip(new) {
                let value = amount.to_be_bytes();
                transcript.push(Step::Put(key.clone(), value));
                self.amounts.insert((key.clone(), std::cmp::Reverse(self.seq)), value);
                ops.push((key.clone(), value));
            }
            self.journal.push(Event::Commit {
                id,
                seq: self.seq,
                now: (),
                ops,
                tracked: keys,
                transcript,
            });
            Ok("ok\n".to_owned())
        }

        fn amount(&self, key: &[u8]) -> Option<[u8; 8]> {
            let newest = (key.to_vec(), std::cmp::Reverse(u64::MAX));
            let (found, value) = self.amounts.range(newest..).next()?;
            (found.0 == key).then_some(*value)
        }

        fn total(&mut self, asset: &[u8]) -> String {
            let head = balance_key(asset, b"");
            let issued = self.amount(&issued_key(asset)).map_or(0, u64::from_be_bytes);
            let mut sum = 0;
            let mut last: &[u8] = b"";
            let from = (head.clone(), std::cmp::Reverse(u64::MAX));
            for ((key, _), value) in self.amounts.range(from..) {
                if !key.starts_with(&head) {
                    break;
                }
                if key != last {
                    sum += u64::from_be_bytes(*value);
                }
                last = key;
            }
            format!("total {sum} {issued}\n")
        }
    }
}

/// A queue of jobs with leases, in memory, and the journal of all commits.
mod queue {
    use crate::lines::answer_each;
    use std::cmp::Reverse;
    use std::collections::BTreeMap;
    use std::fmt::Write as _;
    use std::io::{Read, Write};
    use std::str::{from_utf8, FromStr};

    /// The key of the counter, under which the last id stands.
    const COUNTER: &[u8] = b"n";

    /// What the keys of all jobs begin with.
    const JOBS: &[u8] = b"j";

    /// By which rows are ordered: by key upwards, and the newest of a key first.
    type RowKey = (Vec<u8>, Reverse<u64>);

    /// A put of a value, or a delete.
    type Op = (Vec<u8>, Option<Vec<u8>>);

    /// One thing that a transaction did or saw. It is kept, and nothing asks for it.
    #[allow(dead_code)]
    enum Step {
        Get(Vec<u8>, Option<Vec<u8>>),
        Scan(Vec<u8>),
        Next(Option<(Vec<u8>, Vec<u8>)>),
        Own(Op),
    }

    type Event = crate::journal::Event<Op, Step, i64>;

    /// The lease of a job: its number, 0 where the job was never claimed, and its end.
    struct Lease {
        number: u64,
        ends: i64,
    }

    impl Lease {
        fn of(job: &[u8]) -> Option<Lease> {
            let (number, rest) = job.split_first_chunk()?;
            Some(Lease {
                number: u64::from_be_bytes(*number),
                ends: i64::from_be_bytes(*rest.first_chunk()?),
            })
        }

        fn is_free(&self, now: i64) -> bool {
            self.number == 0 || self.ends <= now
        }

        /// The job under this lease.
        fn job(&self, payload: &[u8]) -> Vec<u8> {
            [&self.number.to_be_bytes()[..], &self.ends.to_be_bytes(), payload].concat()
        }
    }

    /// All versions of all keys, and what was done.
    #[derive(Default)]
    struct Queue {
        rows: BTreeMap<RowKey, Option<Vec<u8>>>,
        seq: u64,
        ids: u64,
        journal: Vec<Event>,
    }

    /// Answers each line of the source, and gives the status.
    pub fn run(source: impl Read, sink: impl Write) -> i32 {
        let mut queue = Queue::default();
        answer_each(source, sink, |line| queue.answer(line))
    }

    fn job_key(id: u64) -> Vec<u8> {
        [JOBS, &id.to_be_bytes()].concat()
    }

    fn id_of(key: &[u8]) -> Option<u64> {
        Some(u64::from_be_bytes(*key.strip_prefix(JOBS)?.first_chunk()?))
    }

    fn number<T: FromStr + ToString>(token: &[u8]) -> Option<T> {
        let text = from_utf8(token).ok()?;
        let number: T = text.parse().ok()?;
        (number.to_string() == text).then_some(number)
    }

    impl Queue {
        /// The reply to the line; nothing where it is none.
        fn answer(&mut self, line: &[u8]) -> Option<Vec<u8>> {
            let tokens: Vec<&[u8]> = line.split(|byte| *byte == b' ').collect();
            match tokens.as_slice() {
                [b"add", payload] => self.add(payload.strip_prefix(b"'")?),
                [b"claim", now, ms] => self.claim(number(now)?, number(ms)?),
                [b"finish", id, lease] => self.finish(number(id)?, number(lease)?),
                [b"feed", after] => Some(self.feed(number(after)?)),
                _ => None,
            }
        }

        fn add(&mut self, payload: &[u8]) -> Option<Vec<u8>> {
            let tx = self.begin();
            let counter = self.get(COUNTER);
            let last = match &counter {
                Some(number) => u64::from_be_bytes(*number.first_chunk()?),
                None => 0,
            };
            let id = last + 1;
            let job = Lease { number: 0, ends: 0 }.job(payload);
            let ops = vec![
                (COUNTER.to_vec(), Some(id.to_be_bytes().to_vec())),
                (job_key(id), Some(job)),
            ];
            self.commit(tx, 0, ops, vec![Step::Get(COUNTER.to_vec(), counter)]);
            Some(format!("added {id}\n").into_bytes())
        }

        /// Claims the free job with the least id.
        fn claim(&mut self, now: i64, ms: u64) -> Option<Vec<u8>> {
            let tx = self.begin();
            let mut transcript = vec![Step::Scan(JOBS.to_vec())];
            let Some((key, job)) = self.find_free(now, &mut transcript) else {
                self.journal.push(Event::End { id: tx });
                return Some(b"none\n".to_vec());
            };
            let id = id_of(&key)?;
            let lease = Lease {
                number: Lease::of(&job)?.number + 1,
                ends: now.saturating_add_unsigned(ms),
            };
            let payload = &job[16..];
            let mut reply = format!("claimed {id} {} '", lease.number).into_bytes();
            reply.extend_from_slice(payload);
            reply.push(b'\n');
            let ops = vec![(key, Some(lease.job(payload)))];
            self.commit(tx, now, ops, transcript);
            Some(reply)
        }

        /// The first job that is free at the moment. What it reads is added to the transcript.
        fn find_free(&self, now: i64, transcript: &mut Vec<Step>) -> Option<(Vec<u8>, Vec<u8>)> {
            let from = (JOBS.to_vec(), Reverse(u64::MAX));
            let mut last: &[u8] = b"";
            for ((key, _), job) in self.rows.range(from..) {
                if !key.starts_with(JOBS) {
                    break;
                }
                let is_newest = key != last;
                last = key;
                if let (true, Some(job)) = (is_newest, job) {
                    transcript.push(Step::Next(Some((key.clone(), job.clone()))));
                    if Lease::of(job)?.is_free(now) {
                        return Some((key.clone(), job.clone()));
                    }
                }
            }
            transcript.push(Step::Next(None));
            None
        }

        /// Deletes a job that was last claimed under this lease.
        fn finish(&mut self, id: u64, lease: u64) -> Option<Vec<u8>> {
            let tx = self.begin();
            let key = job_key(id);
            let job = self.get(&key);
            let refusal = match &job {
                None => Some(format!("refused NoJob {id}\n")),
                Some(job) => match Lease::of(job)?.number {
                    current if current == lease && lease != 0 => None,
                    current => Some(format!("refused StaleLease {current}\n")),
                },
            };
            if let Some(refusal) = refusal {
                self.journal.push(Event::End { id: tx });
                return Some(refusal.into_bytes());
            }
            self.commit(tx, 0, vec![(key.clone(), None)], vec![Step::Get(key, job)]);
            Some(b"ok\n".to_vec())
        }

        /// Of each commit above the number its own, and how many keys it has.
        fn feed(&self, after: u64) -> Vec<u8> {
            let mut entries = String::new();
            let mut count = 0;
            for event in &self.journal {
                match event {
                    Event::Commit { seq, ops, .. } if *seq > after => {
                        count += 1;
                        let _ = write!(entries, " {seq} {}", ops.len());
                    }
                    _ => {}
                }
            }
            format!("feed {count}{entries}\n").into_bytes()
        }

        /// Begins a transaction, and gives its id.
        fn begin(&mut self) -> u64 {
            self.ids += 1;
            self.journal.push(Event::Begin {
                id: self.ids,
                seq: self.seq,
            });
            self.ids
        }

        fn get(&self, key: &[u8]) -> Option<Vec<u8>> {
            let newest = (key.to_vec(), Reverse(u64::MAX));
            let (found, value) = self.rows.range(newest..).next()?;
            (found.0 == key).then(|| value.clone())?
        }

        /// Commits operations of different keys, behind what the transcript has.
        fn commit(&mut self, id: u64, now: i64, mut ops: Vec<Op>, mut transcript: Vec<Step>) {
            self.seq += 1;
            transcript.extend(ops.iter().cloned().map(Step::Own));
            ops.sort();
            for (key, value) in &ops {
                let row = (key.clone(), Reverse(self.seq));
                self.rows.insert(row, value.clone());
            }
            self.journal.push(Event::Commit {
                id,
                seq: self.seq,
                now,
                tracked: ops.iter().map(|(key, _)| key.clone()).collect(),
                ops,
                transcript,
            });
        }
    }
}

/// The scripts that `slate` and plain Rust answer. `docs/SCRIPT.md` has their language.
mod scripts {
    use std::fmt::{Result, Write};

    /// How long a script is.
    struct Sizes {
        /// How many writes a script has that flushes at its end or not at all.
        many: u64,

        /// How many writes a script has that flushes in between.
        some: u64,

        /// How many gets follow where a get can meet each table.
        few: u64,

        /// How many writes stand between two flushes where 156 runs are scanned.
        run: u64,

        /// How many keys are in the range that one of two transactions scans.
        width: u64,

        /// How many writes stand between two flushes where there are segments.
        segments_run: u64,

        /// How many keys a segment has.
        segment: u64,

        /// How many merges stand between two flushes.
        merges: u64,
    }

    const WHOLE: Sizes = Sizes {
        many: 100_000,
        some: 10_000,
        few: 1_000,
        run: 640,
        width: 10_000,
        segments_run: 10_000,
        segment: 1_000,
        merges: 1_000,
    };

    /// A tenth as long, for counts of instructions; scripts with a flush behind each 64 writes have 4,000 of them.
    const SMALL: Sizes = Sizes {
        many: 10_000,
        some: 4_000,
        few: 400,
        run: 64,
        width: 1_000,
        segments_run: 1_000,
        segment: 100,
        merges: 100,
    };

    /// How many writes stand between two flushes.
    const FLUSH_INTERVAL: u64 = 64;

    /// How many accounts pay each other.
    const ACCOUNTS: u64 = 1_000;

    /// How often all rows are scanned.
    const SCANS: u64 = 4;

    /// How far apart the keys of a table are that two transactions scan.
    const STEP: u64 = 100;

    /// How many keys are drawn from.
    const DRAWN_KEYS: u64 = 1_000;

    /// How many rounds lie between two flushes of a script that is made from a seed.
    const ROUNDS_PER_FLUSH: u32 = 64;

    /// The script of this name, and nothing where there is none.
    pub fn make(name: &str) -> Option<String> {
        make_of(name, &WHOLE)
    }

    /// The same, shorter.
    pub fn make_small(name: &str) -> Option<String> {
        make_of(name, &SMALL)
    }

    fn make_of(name: &str, sizes: &Sizes) -> Option<String> {
        let &Sizes {
            many,
            some,
            few,
            run,
            ..
        } = sizes;
        let mut text = String::new();
        let made = match name {
            "write" => write_many(&mut text, many),
            "write_and_flush" => write_many(&mut text, many).and_then(|()| writeln!(text, "flush")),
            "read_rising" => write_and_read(&mut text, |i| i, some, some),
            "read_scattered" => write_and_read(&mut text, |i| scattered(i, some), some, few),
            "read_filtered" => write_and_read(&mut text, |i| scattered(i, some), some, some),
            "scan_up" => write_and_scan(&mut text, many, many, "asc"),
            "scan_down" => write_and_scan(&mut text, many, many, "desc"),
            "scan_runs_up" => write_and_scan(&mut text, many, run, "asc"),
            "scan_runs_down" => write_and_scan(&mut text, many, run, "desc"),
            "write_past_scans" => write_past_scans(&mut text, sizes),
            "merge" => merge_many(&mut text, sizes),
            "segments" => write_and_scan_segments(&mut text, sizes),
            "records" => put_and_find(&mut text, many, few),
            "payments" => pay_many(&mut text, many),
            "jobs" => add_and_claim(&mut text, many, few),
            _ => return None,
        };
        made.ok().map(|()| text)
    }

    /// The numbers below the count, each once, neighbours far apart.
    fn scattered(i: u64, count: u64) -> u64 {
        i * 7919 % count
    }

    fn put(text: &mut String, key: u64, value: u64) -> Result {
        writeln!(text, "write put 'account/{key:08}/balance '{value:0100}")
    }

    /// Many records of two fields, each of which has so many values, and a search for each value in each index.
    fn put_and_find(text: &mut String, many: u64, values: u64) -> Result {
        for i in 0..many {
            let first = i % values;
            let second = i / values * 7 % values;
            writeln!(text, "put r{:06} 'town{first},trade{second}", scattered(i, many))?;
        }
        (0..values).try_for_each(|value| writeln!(text, "find 0 'town{value}\nfind 1 'trade{value}"))
    }

    fn write_many(text: &mut String, many: u64) -> Result {
        (0..many).try_for_each(|i| put(text, scattered(i, many), i))
    }

    /// Lines of orders: so many payments among 1,000 accounts, which begin with 1,000 each, and the total.
    fn pay_many(text: &mut String, many: u64) -> Result {
        writeln!(text, "issue money bank {}", ACCOUNTS * 1_000)?;
        (0..ACCOUNTS).try_for_each(|i| writeln!(text, "pay money bank account{i} 1000"))?;
        for i in 0..many {
            let from = scattered(i, ACCOUNTS);
            let to = (from + 1 + i / ACCOUNTS) % ACCOUNTS;
            if from != to {
                writeln!(text, "pay money account{from} account{to} {}", i % 7)?;
            }
        }
        writeln!(text, "total money")
    }

    /// Lines of a queue: many jobs are added, and so many of them claimed and finished in turn; then the feed of all commits.
    fn add_and_claim(text: &mut String, many: u64, claims: u64) -> Result {
        (1..=many).try_for_each(|id| writeln!(text, "add 'letter-{id:08}"))?;
        (1..=claims).try_for_each(|id| writeln!(text, "claim {id} 1000\nfinish {id} 1"))?;
        writeln!(text, "feed 0")
    }

    /// Many writes with a flush behind each so many, and scans of all rows.
    fn write_and_scan(text: &mut String, many: u64, interval: u64, order: &str) -> Result {
        for i in 0..many {
            put(text, scattered(i, many), i)?;
            if (i + 1) % interval == 0 {
                writeln!(text, "flush")?;
            }
        }
        writeln!(text, "begin t si")?;
        (0..SCANS).try_for_each(|_| writeln!(text, "scan t {order} * *"))
    }

    /// Many writes over segments, with a flush behind each so many, and a scan of each segment.
    fn write_and_scan_segments(text: &mut String, sizes: &Sizes) -> Result {
        for i in 0..sizes.many {
            let key = scattered(i, sizes.many);
            let segment = key / sizes.segment;
            writeln!(text, "write put 's{segment:02}:{key:012}/balance '{i:0100}")?;
            if (i + 1) % sizes.segments_run == 0 {
                writeln!(text, "flush")?;
            }
        }
        writeln!(text, "begin t si")?;
        (0..sizes.many / sizes.segment)
            .try_for_each(|segment| writeln!(text, "prefix t asc 's{segment:02}: * *"))
    }

    /// Two serializable transactions that each scan a range of a table, many writes of keys that leave out the range of the first
    /// alone, and the commits of both.
    fn write_past_scans(text: &mut String, sizes: &Sizes) -> Result {
        let middle = sizes.many / 2;
        let scans = [("free", middle), ("met", middle + sizes.width)];
        (0..sizes.few).try_for_each(|i| put(text, i * STEP, i))?;
        writeln!(text, "flush")?;
        for (name, start) in scans {
            let end = start + sizes.width;
            writeln!(text, "begin {name} ssi")?;
            writeln!(
                text,
                "scan {name} asc i'account/{start:08} e'account/{end:08}"
            )?;
        }
        for i in 0..sizes.many {
            let key = scattered(i, sizes.many);
            put(text, if key < middle { key } else { key + sizes.width }, i)?;
        }
        for (name, start) in scans {
            writeln!(text, "put {name} 'account/{start:08} '{name}")?;
            writeln!(text, "commit {name}")?;
        }
        Ok(())
    }

    /// Many operands of counters that are drawn, with a flush behind each so many, and a get of each counter.
    fn merge_many(text: &mut String, sizes: &Sizes) -> Result {
        let mut x = 0;
        for i in 0..sizes.many {
            x = drawn(x);
            let counter = key_number(x);
            writeln!(
                text,
                "write merge 'counter/{counter:03} '{:08}",
                scattered(i, sizes.many)
            )?;
            if (i + 1) % sizes.merges == 0 {
                writeln!(text, "flush")?;
            }
        }
        writeln!(text, "begin t si")?;
        (0..DRAWN_KEYS).try_for_each(|counter| writeln!(text, "get t 'counter/{counter:03}"))
    }

    /// The script of so many rounds that `slate` makes from a seed, and nothing where there is no room. A round reads one of 1,000
    /// keys and writes one.
    pub fn generate(rounds: u32, seed: u64) -> Option<String> {
        let mut text = String::new();
        push_rounds(&mut text, rounds, seed).ok().map(|()| text)
    }

    fn push_rounds(text: &mut String, rounds: u32, seed: u64) -> Result {
        let mut x = seed;
        for number in 1..=rounds {
            let first = drawn(x);
            let second = drawn(first);
            writeln!(text, "begin t ssi\nget t 'k{}", key_number(first))?;
            writeln!(text, "put t 'k{} 'v{number}\ncommit t", key_number(second))?;
            if number % ROUNDS_PER_FLUSH == 0 {
                writeln!(text, "flush")?;
            }
            x = second;
        }
        writeln!(text, "flush")
    }

    pub fn drawn(x: u64) -> u64 {
        x.wrapping_mul(6364136223846793005)
            .wrapping_add(1442695040888963407)
    }

    pub fn key_number(x: u64) -> u64 {
        (x >> 33) % DRAWN_KEYS
    }

    /// Writes with flushes in between, and gets behind them, each of the key of another write.
    fn write_and_read(text: &mut String, key: impl Fn(u64) -> u64, some: u64, gets: u64) -> Result {
        for i in 0..some {
            put(text, key(i), i)?;
            if (i + 1) % FLUSH_INTERVAL == 0 {
                writeln!(text, "flush")?;
            }
        }
        writeln!(text, "begin t si")?;
        let stride = some / gets;
        (0..gets).try_for_each(|i| {
            writeln!(
                text,
                "get t 'account/{:08}/balance",
                key(scattered(i * stride, some))
            )
        })
    }
}

/// How long a program takes, and how much memory.
mod measure {
    use std::fs::OpenOptions;
    use std::io::{self, Write};
    use std::process::Command;

    /// What the system tells of a process that ended: seconds and microseconds for the program, and for the system on its behalf, then
    /// its peak memory.
    #[repr(C)]
    #[derive(Default)]
    struct Usage {
        times: [i64; 4],
        peak_kib: i64,
        others: [i64; 13],
    }

    extern "C" {
        fn wait4(process: i32, status: *mut i32, options: i32, usage: *mut Usage) -> i32;
    }

    /// Runs a program over this one's standard input and output, and appends its processor time in nanoseconds and its peak memory in KiB to
    /// a file. Gives
    /// the program's status, and 1 where it has none or a call of the system fails.
    pub fn measure(file: &str, program: &str, words: &[&str]) -> i32 {
        run(file, program, words).unwrap_or(1)
    }

    fn run(file: &str, program: &str, words: &[&str]) -> io::Result<i32> {
        let mut figures = OpenOptions::new().create(true).append(true).open(file)?;
        let (mut status, mut usage) = (0, Usage::default());
        let child = Command::new(program).args(words).spawn()?;
        // The standard library waits without asking for the memory.
        let ended = unsafe { wait4(child.id() as i32, &mut status, 0, &mut usage) };
        let [seconds, micros, system_seconds, system_micros] = usage.times;
        let nanos = (seconds + system_seconds) * 1_000_000_000 + (micros + system_micros) * 1_000;
        if ended < 0 {
            return Err(io::Error::last_os_error());
        }
        writeln!(figures, "{nanos} {}", usage.peak_kib)?;
        let was_killed = status & 127 != 0;
        Ok(if was_killed { 1 } else { status >> 8 & 255 })
    }
}
