//! everyday: the replay as one would first write it in Rust, for scale beside plain.rs, which is
//! written to be quick. Lines are read into a buffer, cut at tabs and parsed; nothing is tuned.
//!
//! No crates:  rustc -O --edition 2021 everyday.rs
//!
//! It is written from documents 01 and 02.  everyday replay PAGE LOG

use std::env;
use std::fs::{self, File};
use std::io::{self, BufRead, BufReader, BufWriter, Write};
use std::process;

#[derive(Clone, Copy)]
enum Quantity {
    HighestCell,
    LowestCell,
    Current,
    Temperature1,
    Temperature2,
}

use Quantity::*;

/// What each protection looks at, whether it trips at or above, and its mode.
const PROTECTIONS: [(Quantity, bool, Option<u16>); 10] = [
    (HighestCell, true, Some(0x15)),
    (LowestCell, false, None),
    (Current, true, Some(0x12)),
    (Current, false, Some(0x13)),
    (Current, false, Some(0x14)),
    (Temperature1, true, Some(0x10)),
    (Temperature1, true, Some(0x11)),
    (Temperature2, true, Some(0x16)),
    (Temperature1, false, None),
    (Temperature1, false, None),
];

const MODE_ORDER: [usize; 7] = [4, 3, 2, 0, 7, 6, 5];

const RANGES: [(u16, u16); 8] =
    [(2, 10), (1, 5), (1, 240), (0, 6000), (1, 6000), (1, 32767), (0, 6000), (0, 32767)];

struct Refused {
    number: u16,
    word: usize,
}

fn check_byte(bytes: &[u8]) -> u8 {
    bytes.iter().fold(0, |left, byte| {
        (0..8).fold(left ^ byte, |left, _| if left & 0x80 != 0 { left << 1 ^ 0x07 } else { left << 1 })
    })
}

/// A level as the page has it.
fn level(quantity: Quantity, word: u16) -> i32 {
    match quantity {
        HighestCell | LowestCell => i32::from(word),
        Current | Temperature1 | Temperature2 => i32::from(word as i16),
    }
}

/// A level in the unit of the samples, reached from below (at or above it) or from above.
fn sampled(quantity: Quantity, word: u16, above: bool) -> i32 {
    match quantity {
        Temperature1 | Temperature2 => 10 * level(quantity, word) + if above { 2732 } else { 2731 },
        HighestCell | LowestCell | Current => level(quantity, word),
    }
}

fn level_fits(quantity: Quantity, word: u16) -> bool {
    match quantity {
        HighestCell | LowestCell => word <= 6000,
        Current => true,
        Temperature1 | Temperature2 => (-40..=120).contains(&level(quantity, word)),
    }
}

/// The words of an accepted page, and how many protections it has.
fn judge(page: &[u8]) -> Result<(Vec<u16>, usize), Refused> {
    let refused = |number, word| Err(Refused { number, word });
    let (mark, protections) = match page.len() {
        128 => (0x17A4, 8),
        160 => (0x17A5, 10),
        _ => return refused(1, 0),
    };
    let words: Vec<u16> = page.chunks(2).map(|pair| u16::from_le_bytes([pair[0], pair[1]])).collect();
    let last = words.len() - 1;
    if words[0] == 0xA417 || words[0] == 0xA517 {
        return refused(2, 0);
    }
    if words[0] != mark {
        return refused(3, 0);
    }
    if check_byte(&page[..page.len() - 1]) != page[page.len() - 1] {
        return refused(4, 0);
    }
    let behind = 16 + 5 * protections;
    for i in (9..16).chain(behind..last) {
        if words[i] != 0 {
            return refused(5, i);
        }
    }
    if words[last] & 0xFF != 0 {
        return refused(5, last);
    }
    for (i, (least, most)) in RANGES.iter().enumerate() {
        if !(*least..=*most).contains(&words[i + 1]) {
            return refused(6, i + 1);
        }
    }
    for p in 0..protections {
        let at = 16 + 5 * p;
        let quantity = PROTECTIONS[p].0;
        for i in at..at + 5 {
            let fits = match i - at {
                0 | 1 => level_fits(quantity, words[i]),
                2 | 3 => (1..=240).contains(&words[i]),
                _ => words[i] <= 3,
            };
            if !fits {
                return refused(7, i);
            }
        }
    }
    for p in 0..protections {
        let at = 16 + 5 * p;
        let (quantity, above, _) = PROTECTIONS[p];
        let (trip, release) = (level(quantity, words[at]), level(quantity, words[at + 1]));
        if if above { release >= trip } else { release <= trip } {
            return refused(8, at);
        }
    }
    Ok((words, protections))
}

struct Protection {
    quantity: Quantity,
    above: bool,
    trip: i32,
    release: i32,
    n: u16,
    m: u16,
    mask: u16,
    raised: bool,
    run: u16,
}

impl Protection {
    fn step(&mut self, value: i32) {
        let (meets, needed) = if self.raised {
            (if self.above { value <= self.release } else { value >= self.release }, self.m)
        } else {
            (if self.above { value >= self.trip } else { value <= self.trip }, self.n)
        };
        self.run = if meets { self.run + 1 } else { 0 };
        if self.run == needed {
            self.raised = !self.raised;
            self.run = 0;
        }
    }
}

struct Sample {
    current: i32,
    temperatures: [i32; 2],
    cells: Vec<i32>,
}

struct Pack {
    cells: usize,
    most: usize,
    limit: u16,
    floor: i32,
    difference: i32,
    detection: i32,
    protections: Vec<Protection>,
    command: u16,
    tick: u32,
    sampled: bool,
    start: usize,
    bled_runs: Vec<u16>,
    bled: u16,
    charging: bool,
}

impl Pack {
    fn load(words: &[u16], protections: usize) -> Pack {
        let protections = (0..protections)
            .map(|p| {
                let (quantity, above, _) = PROTECTIONS[p];
                let five = &words[16 + 5 * p..21 + 5 * p];
                Protection {
                    quantity,
                    above,
                    trip: sampled(quantity, five[0], above),
                    release: sampled(quantity, five[1], !above),
                    n: five[2],
                    m: five[3],
                    mask: five[4],
                    raised: false,
                    run: 0,
                }
            })
            .collect();
        let cells = usize::from(words[1]);
        Pack {
            cells,
            most: usize::from(words[2]),
            limit: words[3],
            floor: i32::from(words[4]),
            difference: i32::from(words[5]),
            detection: i32::from(words[6]),
            protections,
            command: 0,
            tick: 0,
            sampled: false,
            start: 0,
            bled_runs: vec![0; cells],
            bled: 0,
            charging: false,
        }
    }

    fn offer(&mut self, sample: &Sample) -> Result<(), u16> {
        if sample.cells.len() != self.cells {
            return Err(9);
        }
        if sample.cells.iter().any(|cell| *cell > 6000) {
            return Err(10);
        }
        if sample.temperatures.iter().any(|t| !(2000..=4500).contains(t)) {
            return Err(11);
        }
        let highest = *sample.cells.iter().max().unwrap();
        let lowest = *sample.cells.iter().min().unwrap();
        for protection in &mut self.protections {
            protection.step(match protection.quantity {
                HighestCell => highest,
                LowestCell => lowest,
                Current => sample.current,
                Temperature1 => sample.temperatures[0],
                Temperature2 => sample.temperatures[1],
            });
        }
        self.charging = sample.current >= self.detection;
        let may_bleed = self.charging && self.raised() == 0;
        let mut taken = vec![false; self.cells];
        let mut count = 0;
        for turn in 0..self.cells {
            let k = (self.start + turn) % self.cells;
            let cell = sample.cells[k];
            let wants = may_bleed && cell >= self.floor && cell - lowest > self.difference;
            let beside = k > 0 && taken[k - 1] || k + 1 < self.cells && taken[k + 1];
            if wants && self.bled_runs[k] < self.limit && !beside && count < self.most {
                taken[k] = true;
                count += 1;
            }
        }
        self.bled = 0;
        for (k, taken) in taken.iter().enumerate() {
            self.bled |= u16::from(*taken) << k;
            self.bled_runs[k] = if *taken { self.bled_runs[k] + 1 } else { 0 };
        }
        self.start = (self.start + 1) % self.cells;
        self.tick = (self.tick + 1) % 1_000_000;
        self.sampled = true;
        Ok(())
    }

    fn raised(&self) -> u16 {
        self.protections.iter().enumerate().map(|(p, it)| u16::from(it.raised) << p).sum()
    }

    fn fets(&self) -> u16 {
        let blocked = self.protections.iter().filter(|p| p.raised).fold(0, |mask, p| mask | p.mask);
        if self.sampled { self.command & !blocked } else { 0 }
    }

    fn mode(&self) -> u16 {
        let raised = MODE_ORDER.iter().find(|p| self.protections[**p].raised);
        match raised {
            _ if !self.sampled => 0,
            Some(p) => PROTECTIONS[*p].2.unwrap(),
            None if self.charging => 3,
            None => 2,
        }
    }
}

/// A decimal number without leading zeros, at most `most`.
fn number(field: &[u8], most: i32) -> Option<i32> {
    let text = std::str::from_utf8(field).ok()?;
    if text.is_empty() || text.len() > 1 && text.starts_with('0') || !text.bytes().all(|b| b.is_ascii_digit()) {
        return None;
    }
    text.parse().ok().filter(|value| *value <= most)
}

fn current(field: &[u8]) -> Option<i32> {
    match field.strip_prefix(b"-") {
        Some(digits) => number(digits, 32768).filter(|value| *value > 0).map(|value| -value),
        None => number(field, 32767),
    }
}

fn decide(pack: &mut Pack, line: &[u8]) -> Result<(), u16> {
    if line.len() > 128 {
        return Err(17);
    }
    let fields: Vec<&[u8]> = line.split(|byte| *byte == b'\t').collect();
    match fields[0] {
        b"F" if fields.len() == 2 => {
            let command = number(fields[1], 65535).ok_or(17u16)?;
            if command > 3 {
                return Err(16);
            }
            pack.command = command as u16;
            Ok(())
        }
        b"S" if (4..=14).contains(&fields.len()) => {
            let values: Option<Vec<i32>> = fields[2..].iter().map(|field| number(field, 65535)).collect();
            let values = values.ok_or(17u16)?;
            pack.offer(&Sample {
                current: current(fields[1]).ok_or(17u16)?,
                temperatures: [values[0], values[1]],
                cells: values[2..].to_vec(),
            })
        }
        _ => Err(17),
    }
}

fn replay(page: &str, log: &str) -> io::Result<()> {
    let mut out = BufWriter::new(io::stdout().lock());
    let (words, protections) = match judge(&fs::read(page)?) {
        Ok(page) => page,
        Err(refused) => return writeln!(out, "page\t{}\t{}", refused.number, refused.word),
    };
    let mut pack = Pack::load(&words, protections);
    let mut log = BufReader::new(File::open(log)?);
    writeln!(out, "tick\traised\tfets\tbalance\tmode")?;
    let mut line = Vec::new();
    while log.read_until(b'\n', &mut line)? > 0 {
        let text = line.strip_suffix(b"\n").unwrap_or(&line);
        match decide(&mut pack, text) {
            Ok(()) => writeln!(out, "{}\t{}\t{}\t{}\t{}", pack.tick, pack.raised(), pack.fets(), pack.bled, pack.mode())?,
            Err(number) => writeln!(out, "refused\t{number}")?,
        }
        line.clear();
    }
    out.flush()
}

fn main() {
    let words: Vec<String> = env::args().skip(1).collect();
    let answer = match words.iter().map(String::as_str).collect::<Vec<_>>()[..] {
        ["replay", page, log] => replay(page, log),
        _ => {
            eprintln!("usage: everyday replay PAGE LOG");
            process::exit(2);
        }
    };
    if let Err(why) = answer {
        eprintln!("everyday: {why}");
        process::exit(1);
    }
}
