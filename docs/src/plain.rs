//! plain: document 01's replay program as an ordinary quick program.
//!
//! One file, no crates:  rustc -O --edition 2021 plain.rs
//!
//!     plain replay PAGE LOG
//!
//! It is written from documents 01 and 02 alone. It reads and writes large blocks, reads the
//! numbers of a line where they stand, and keeps a run counter for each protection and each cell.
//! It is what the pack keeper races against.

use std::env;
use std::fs::{self, File};
use std::io::{self, Read, Write};
use std::process;

/// How much of the log is read at once, and about how much is written at once.
const BLOCK: usize = 1 << 18;

const HEADER: &[u8] = b"tick\traised\tfets\tbalance\tmode\n";

// ---- The page -----------------------------------------------------------------------------

/// SMBus CRC-8: polynomial x^8 + x^2 + x + 1, start 0, most significant bit first.
fn check_byte(bytes: &[u8]) -> u8 {
    let mut crc = 0u8;
    for byte in bytes {
        crc ^= byte;
        for _ in 0..8 {
            crc = if crc & 0x80 != 0 { crc << 1 ^ 0x07 } else { crc << 1 };
        }
    }
    crc
}

/// What a protection measures. Those that trip at or below keep their quantity and levels
/// negated, so that every protection here trips at or above.
const HIGHEST_CELL: usize = 0;
const NEGATED_LOWEST_CELL: usize = 1;
const CURRENT: usize = 2;
const NEGATED_CURRENT: usize = 3;
const TEMPERATURE_1: usize = 4;
const NEGATED_TEMPERATURE_1: usize = 5;
const TEMPERATURE_2: usize = 6;

const QUANTITIES: [usize; 10] = [
    HIGHEST_CELL,
    NEGATED_LOWEST_CELL,
    CURRENT,
    NEGATED_CURRENT,
    NEGATED_CURRENT,
    TEMPERATURE_1,
    TEMPERATURE_1,
    TEMPERATURE_2,
    NEGATED_TEMPERATURE_1,
    NEGATED_TEMPERATURE_1,
];

/// The mode of a raised protection, in the order in which they are asked.
const MODES: [(usize, u32); 7] =
    [(4, 0x14), (3, 0x13), (2, 0x12), (0, 0x15), (7, 0x16), (6, 0x11), (5, 0x10)];

/// Words 1 to 8: least and most.
const RANGES: [(u16, u16); 8] =
    [(2, 10), (1, 5), (1, 240), (0, 6000), (1, 6000), (1, 32767), (0, 6000), (0, 32767)];

/// A level as the page has it: signed for currents and temperatures.
fn level(quantity: usize, word: u16) -> i32 {
    match quantity {
        HIGHEST_CELL | NEGATED_LOWEST_CELL => i32::from(word),
        _ => i32::from(word as i16),
    }
}

/// A level as it is compared: negated where the quantity is.
fn compared(quantity: usize, level: i32) -> i32 {
    match quantity {
        NEGATED_LOWEST_CELL | NEGATED_CURRENT | NEGATED_TEMPERATURE_1 => -level,
        _ => level,
    }
}

/// A trip level as it is compared, in the unit of the samples. C degrees are 10 × C + 2731.5 tenths
/// of a kelvin, so that an upper trip needs 10 × C + 2732 or more, and a lower one 10 × C + 2731 or
/// less.
fn trip_level(quantity: usize, word: u16) -> i32 {
    let level = compared(quantity, level(quantity, word));
    match quantity {
        TEMPERATURE_1 | TEMPERATURE_2 => 10 * level + 2732,
        NEGATED_TEMPERATURE_1 => 10 * level - 2731,
        _ => level,
    }
}

/// A release level likewise: an upper one needs 10 × C + 2731 or less, a lower one 10 × C + 2732 or
/// more.
fn release_level(quantity: usize, word: u16) -> i32 {
    let level = compared(quantity, level(quantity, word));
    match quantity {
        TEMPERATURE_1 | TEMPERATURE_2 => 10 * level + 2731,
        NEGATED_TEMPERATURE_1 => 10 * level - 2732,
        _ => level,
    }
}

fn level_out_of_range(quantity: usize, level: i32) -> bool {
    match quantity {
        HIGHEST_CELL | NEGATED_LOWEST_CELL => level > 6000,
        CURRENT | NEGATED_CURRENT => false,
        _ => !(-40..=120).contains(&level),
    }
}

/// How many protections a page with so many words has: of 64 or of 80.
fn protections(words: &[u16]) -> usize {
    if words.len() == 64 {
        8
    } else {
        10
    }
}

/// The words of an accepted page, 64 or 80, or the refusal's number and word.
fn judge(page: &[u8]) -> Result<Vec<u16>, (u32, usize)> {
    let mark = match page.len() {
        128 => 0x17A4,
        160 => 0x17A5,
        _ => return Err((1, 0)),
    };
    let words: Vec<u16> =
        page.chunks_exact(2).map(|pair| u16::from_le_bytes([pair[0], pair[1]])).collect();
    if words[0] == 0xA417 || words[0] == 0xA517 {
        return Err((2, 0));
    }
    if words[0] != mark {
        return Err((3, 0));
    }
    let end = page.len() - 1;
    if page[end] != check_byte(&page[..end]) {
        return Err((4, 0));
    }
    let last = words.len() - 1;
    let after = 16 + 5 * protections(&words);
    for word in (9..16).chain(after..last) {
        if words[word] != 0 {
            return Err((5, word));
        }
    }
    if page[end - 1] != 0 {
        return Err((5, last));
    }
    for (word, (least, most)) in (1..9).zip(RANGES) {
        if words[word] < least || words[word] > most {
            return Err((6, word));
        }
    }
    let quantities = &QUANTITIES[..protections(&words)];
    for (p, &quantity) in quantities.iter().enumerate() {
        let first = 16 + 5 * p;
        let count_out = |count: u16| count < 1 || count > 240;
        let wrong = [
            level_out_of_range(quantity, level(quantity, words[first])),
            level_out_of_range(quantity, level(quantity, words[first + 1])),
            count_out(words[first + 2]),
            count_out(words[first + 3]),
            words[first + 4] > 3,
        ];
        if let Some(place) = wrong.iter().position(|&wrong| wrong) {
            return Err((7, first + place));
        }
    }
    for (p, &quantity) in quantities.iter().enumerate() {
        let first = 16 + 5 * p;
        let trip = compared(quantity, level(quantity, words[first]));
        let release = compared(quantity, level(quantity, words[first + 1]));
        if release >= trip {
            return Err((8, first));
        }
    }
    Ok(words)
}

// ---- The pack -----------------------------------------------------------------------------

struct Pack {
    // The page.
    n: usize,
    most_bled: u32,
    run_limit: u32,
    floor: i32,
    difference: i32,
    detection: i32,
    trip: [i32; 10],
    release: [i32; 10],
    trip_count: [u32; 10],
    release_count: [u32; 10],
    mask: [u32; 10],
    // What changes.
    commanded: u32,
    /// Bit p for raised p; bit p of `running` if protection p has a run that isn't 0.
    raised: u32,
    running: u32,
    runs: [u32; 10],
    /// For each quantity the least trip level of the clear protections and the greatest release
    /// level of the raised ones: between the two none counts a sample.
    next_trip: [i32; 7],
    next_release: [i32; 7],
    /// Bits of the masks of all raised protections.
    blocked: u32,
    start: usize,
    balance: u32,
    bled_runs: [u32; 10],
    mode: u32,
    any_sample: bool,
}

impl Pack {
    fn load(words: &[u16]) -> Pack {
        let mut pack = Pack {
            n: usize::from(words[1]),
            most_bled: u32::from(words[2]),
            run_limit: u32::from(words[3]),
            floor: i32::from(words[4]),
            difference: i32::from(words[5]),
            detection: i32::from(words[6]),
            // What the page doesn't have is never tripped.
            trip: [i32::MAX; 10],
            release: [0; 10],
            trip_count: [1; 10],
            release_count: [1; 10],
            mask: [0; 10],
            commanded: 0,
            raised: 0,
            running: 0,
            runs: [0; 10],
            next_trip: [i32::MAX; 7],
            next_release: [i32::MIN; 7],
            blocked: 0,
            start: 0,
            balance: 0,
            bled_runs: [0; 10],
            mode: 0,
            any_sample: false,
        };
        for (p, &quantity) in QUANTITIES[..protections(words)].iter().enumerate() {
            let first = 16 + 5 * p;
            pack.trip[p] = trip_level(quantity, words[first]);
            pack.release[p] = release_level(quantity, words[first + 1]);
            pack.trip_count[p] = u32::from(words[first + 2]);
            pack.release_count[p] = u32::from(words[first + 3]);
            pack.mask[p] = u32::from(words[first + 4]);
        }
        pack.look_ahead();
        pack
    }

    /// Sets the levels at which a protection counts next, and the blocked switches.
    fn look_ahead(&mut self) {
        self.next_trip = [i32::MAX; 7];
        self.next_release = [i32::MIN; 7];
        self.blocked = 0;
        for (p, &quantity) in QUANTITIES.iter().enumerate() {
            if self.raised >> p & 1 == 1 {
                self.next_release[quantity] = self.next_release[quantity].max(self.release[p]);
                self.blocked |= self.mask[p];
            } else {
                self.next_trip[quantity] = self.next_trip[quantity].min(self.trip[p]);
            }
        }
    }

    fn fets(&self) -> u32 {
        if self.any_sample {
            self.commanded & !self.blocked
        } else {
            0
        }
    }

    fn command(&mut self, number: u32) -> Result<(), u32> {
        if number > 3 {
            return Err(16);
        }
        self.commanded = number;
        Ok(())
    }

    fn sample(&mut self, sample: &Sample) -> Result<(), u32> {
        let cells = &sample.cells[..sample.count];
        if cells.len() != self.n {
            return Err(9);
        }
        let (mut lowest, mut highest) = (cells[0], cells[0]);
        for &cell in cells {
            lowest = lowest.min(cell);
            highest = highest.max(cell);
        }
        if highest > 6000 {
            return Err(10);
        }
        let outside = |temperature: i32| !(2000..=4500).contains(&temperature);
        if outside(sample.temperature_1) || outside(sample.temperature_2) {
            return Err(11);
        }
        let quantities = [
            highest,
            -lowest,
            sample.current,
            -sample.current,
            sample.temperature_1,
            -sample.temperature_1,
            sample.temperature_2,
        ];
        self.protect(&quantities);
        let charging = sample.current >= self.detection;
        if charging && self.raised == 0 && highest - lowest > self.difference {
            self.bleed(cells, lowest);
        } else {
            self.rest_all();
        }
        self.start = if self.start + 1 == self.n { 0 } else { self.start + 1 };
        self.any_sample = true;
        self.mode = self.mode_of(charging);
        Ok(())
    }

    /// Steps the protections. A clear one counts tripping samples, a raised one releasing samples;
    /// mostly no run goes on, and then all runs are 0.
    fn protect(&mut self, quantities: &[i32; 7]) {
        let ahead = self.next_release.iter().zip(&self.next_trip).zip(quantities);
        let quiet = ahead.map(|((release, trip), value)| release < value && value < trip);
        if self.running == 0 && quiet.fold(true, |all, one| all && one) {
            return;
        }
        let (mut tripping, mut releasing) = (0u32, 0u32);
        for p in 0..10 {
            tripping |= u32::from(quantities[QUANTITIES[p]] >= self.trip[p]) << p;
            releasing |= u32::from(quantities[QUANTITIES[p]] <= self.release[p]) << p;
        }
        let counting = tripping & !self.raised | releasing & self.raised;
        if counting == 0 {
            self.end_runs(self.running);
            return;
        }
        self.end_runs(self.running & !counting);
        self.running = counting;
        let before = self.raised;
        let mut left = counting;
        while left != 0 {
            let p = left.trailing_zeros() as usize;
            left &= left - 1;
            let raised = before >> p & 1 == 1;
            let limit = if raised { self.release_count[p] } else { self.trip_count[p] };
            self.runs[p] += 1;
            if self.runs[p] == limit {
                self.raised ^= 1 << p;
                self.end_runs(1 << p);
            }
        }
        if self.raised != before {
            self.look_ahead();
        }
    }

    /// The runs of these protections are 0 from now on.
    fn end_runs(&mut self, mut ending: u32) {
        self.running &= !ending;
        while ending != 0 {
            self.runs[ending.trailing_zeros() as usize] = 0;
            ending &= ending - 1;
        }
    }

    /// Chooses the cells to bleed. `bled_runs` counts how many samples up to the one before each
    /// cell was bled in a row; it never goes above the run limit.
    fn bleed(&mut self, cells: &[i32], lowest: i32) {
        let wanted = self.floor.max(lowest + self.difference + 1);
        let n = cells.len();
        let mut taken = 0u32;
        let mut room = self.most_bled;
        let mut cell = self.start;
        for _ in 0..n {
            let neighbours = (taken << 1 | taken >> 1) >> cell & 1;
            if cells[cell] >= wanted
                && neighbours == 0
                && room > 0
                && self.bled_runs[cell] < self.run_limit
            {
                taken |= 1 << cell;
                room -= 1;
            }
            cell = if cell + 1 == n { 0 } else { cell + 1 };
        }
        for (cell, run) in self.bled_runs.iter_mut().enumerate() {
            *run = if taken >> cell & 1 == 1 { *run + 1 } else { 0 };
        }
        self.balance = taken;
    }

    fn rest_all(&mut self) {
        if self.balance != 0 {
            self.balance = 0;
            self.bled_runs = [0; 10];
        }
    }

    fn mode_of(&self, charging: bool) -> u32 {
        if self.raised != 0 {
            for (p, mode) in MODES {
                if self.raised >> p & 1 == 1 {
                    return mode;
                }
            }
        }
        if charging {
            0x03
        } else {
            0x02
        }
    }
}

// ---- A line of the log --------------------------------------------------------------------

struct Sample {
    current: i32,
    temperature_1: i32,
    temperature_2: i32,
    count: usize,
    cells: [i32; 10],
}

/// A number at the front of a text, digit by digit, and how many digits it has. A zero in front is
/// a number by itself.
#[inline(never)]
fn any_number(text: &[u8]) -> Option<(i32, usize)> {
    let mut value = 0;
    let mut count = 0;
    for byte in text {
        let digit = byte.wrapping_sub(b'0');
        if digit > 9 || count == 1 && value == 0 {
            break;
        }
        value = 10 * value + i32::from(digit);
        count += 1;
        if value > 65535 {
            return None;
        }
    }
    if count > 0 {
        Some((value, count))
    } else {
        None
    }
}

/// Reads lines where they stand: `rest` is what is left of the text, the last line of which ends
/// with its newline. Only `next_line` goes over a newline.
struct Reader<'t> {
    rest: &'t [u8],
}

impl<'t> Reader<'t> {
    /// Goes over this byte, if it is the next one.
    #[inline(always)]
    fn over(&mut self, byte: u8) -> Option<()> {
        match self.rest {
            [first, rest @ ..] if *first == byte => {
                self.rest = rest;
                Some(())
            }
            _ => None,
        }
    }

    /// A decimal number 0..65535 without leading zeros, ending before the next byte that is no
    /// digit. Most have four digits: those are taken at once.
    #[inline(always)]
    fn number(&mut self) -> Option<i32> {
        if let [a, b, c, d, e, ..] = *self.rest {
            let digits = u32::from_le_bytes([a, b, c, d]) ^ 0x3030_3030;
            // A digit's byte is now 0..9; any other has its top bit set, here or with 0x76 added.
            let others = (digits.wrapping_add(0x7676_7676) | digits) & 0x8080_8080;
            if others == 0 && digits & 0xFF != 0 && e.wrapping_sub(b'0') > 9 {
                self.rest = &self.rest[4..];
                let pairs = digits.wrapping_mul(10).wrapping_add(digits >> 8);
                return Some(((pairs & 0xFF) * 100 + (pairs >> 16 & 0xFF)) as i32);
            }
        }
        let (value, count) = any_number(self.rest)?;
        self.rest = &self.rest[count..];
        Some(value)
    }

    /// -32768..32767, no `-0`.
    #[inline(always)]
    fn current(&mut self) -> Option<i32> {
        if self.over(b'-').is_some() {
            return match self.number() {
                Some(size) if size >= 1 && size <= 32768 => Some(-size),
                _ => None,
            };
        }
        self.number().filter(|&value| value <= 32767)
    }

    /// The fields of an `S` line up to its newline. No line that reads well is longer than 80
    /// bytes, so that the limit of 128 needs no test of its own.
    #[inline(always)]
    fn sample(&mut self, sample: &mut Sample) -> Option<()> {
        self.over(b'\t')?;
        sample.current = self.current()?;
        self.over(b'\t')?;
        sample.temperature_1 = self.number()?;
        self.over(b'\t')?;
        sample.temperature_2 = self.number()?;
        let mut count = 0;
        while self.over(b'\t').is_some() {
            *sample.cells.get_mut(count)? = self.number()?;
            count += 1;
        }
        sample.count = count;
        self.line_ends()
    }

    /// The field of an `F` line up to its newline.
    fn command(&mut self) -> Option<u32> {
        self.over(b'\t')?;
        let number = self.number()?;
        self.line_ends()?;
        Some(number as u32)
    }

    fn line_ends(&self) -> Option<()> {
        if self.rest.first() == Some(&b'\n') {
            Some(())
        } else {
            None
        }
    }

    fn next_line(&mut self) {
        while let [first, rest @ ..] = self.rest {
            self.rest = rest;
            if *first == b'\n' {
                return;
            }
        }
    }
}

// ---- The output ---------------------------------------------------------------------------

/// The tick as text, counted up in place, and the other fields as they were last written.
struct Output {
    block: Vec<u8>,
    digits: [u8; 6],
    first_digit: usize,
    tail: [u8; 24],
    tail_length: usize,
    tail_holds: (u32, u32, u32, u32),
}

impl Output {
    fn new() -> Output {
        Output {
            block: Vec::with_capacity(BLOCK + 4096),
            digits: [b'0'; 6],
            first_digit: 5,
            tail: [0; 24],
            tail_length: 0,
            tail_holds: (u32::MAX, 0, 0, 0),
        }
    }

    /// One more accepted sample, modulo 1000000.
    fn count_up(&mut self) {
        for place in (0..6).rev() {
            if self.digits[place] < b'9' {
                self.digits[place] += 1;
                self.first_digit = self.first_digit.min(place);
                return;
            }
            self.digits[place] = b'0';
        }
        self.first_digit = 5;
    }

    fn set_tail(&mut self, fields: (u32, u32, u32, u32)) {
        self.tail_holds = fields;
        self.tail_length = 0;
        for value in [fields.0, fields.1, fields.2, fields.3] {
            self.tail[self.tail_length] = b'\t';
            self.tail_length += 1;
            // At most four digits: `raised` and `balance` are at most 1023.
            for (least, unit) in [(1000, 1000), (100, 100), (10, 10), (0, 1)] {
                if value >= least {
                    self.tail[self.tail_length] = b'0' + (value / unit % 10) as u8;
                    self.tail_length += 1;
                }
            }
        }
        self.tail[self.tail_length] = b'\n';
        self.tail_length += 1;
    }

    fn decision(&mut self, pack: &Pack) {
        let fields = (pack.raised, pack.fets(), pack.balance, pack.mode);
        if fields != self.tail_holds {
            self.set_tail(fields);
        }
        self.block.extend_from_slice(&self.digits[self.first_digit..]);
        self.block.extend_from_slice(&self.tail[..self.tail_length]);
    }

    fn refused(&mut self, number: u32) {
        self.block.extend_from_slice(b"refused\t");
        if number >= 10 {
            self.block.push(b'0' + (number / 10) as u8);
        }
        self.block.push(b'0' + (number % 10) as u8);
        self.block.push(b'\n');
    }

    fn write_out(&mut self) -> Result<(), String> {
        let written = io::stdout().write_all(&self.block);
        self.block.clear();
        written.map_err(|error| format!("standard output: {}", error))
    }
}

// ---- The replay ---------------------------------------------------------------------------

/// Decides the lines of `text`, the last of which ends with its newline.
fn decide(text: &[u8], pack: &mut Pack, output: &mut Output) -> Result<(), String> {
    let mut reader = Reader { rest: text };
    let mut sample =
        Sample { current: 0, temperature_1: 0, temperature_2: 0, count: 0, cells: [0; 10] };
    while !reader.rest.is_empty() {
        if reader.over(b'S').is_some() {
            match reader.sample(&mut sample).ok_or(17).and_then(|()| pack.sample(&sample)) {
                Ok(()) => {
                    output.count_up();
                    output.decision(pack);
                }
                Err(number) => output.refused(number),
            }
        } else if reader.over(b'F').is_some() {
            match reader.command().ok_or(17).and_then(|number| pack.command(number)) {
                Ok(()) => output.decision(pack),
                Err(number) => output.refused(number),
            }
        } else {
            output.refused(17);
        }
        reader.next_line();
        if output.block.len() >= BLOCK {
            output.write_out()?;
        }
    }
    Ok(())
}

fn read_block(log: &mut File, room: &mut [u8], name: &str) -> Result<usize, String> {
    loop {
        match log.read(room) {
            Ok(count) => return Ok(count),
            Err(error) if error.kind() == io::ErrorKind::Interrupted => {}
            Err(error) => return Err(format!("{}: {}", name, error)),
        }
    }
}

/// Decides the log block by block. What stands after the last newline of a block is moved to the
/// front, and the next block is read after it; a line that fills the block is far over 128 bytes,
/// so its bytes are dropped until it ends.
fn decide_log(
    log: &mut File,
    name: &str,
    pack: &mut Pack,
    output: &mut Output,
) -> Result<(), String> {
    let mut block = vec![0u8; BLOCK + 1];
    let mut filled = read_block(log, &mut block[..BLOCK], name)?;
    let mut ended = filled == 0;
    let mut too_long = false;
    output.block.extend_from_slice(HEADER);
    loop {
        if ended && (filled > 0 || too_long) {
            // The last line need not end: end it here.
            block[filled] = b'\n';
            filled += 1;
        }
        let whole = block[..filled].iter().rposition(|&byte| byte == b'\n').map_or(0, |at| at + 1);
        let mut from = 0;
        if too_long && whole > 0 {
            from = block.iter().position(|&byte| byte == b'\n').map_or(whole, |at| at + 1);
            output.refused(17);
            too_long = false;
        }
        decide(&block[from..whole], pack, output)?;
        if ended {
            return output.write_out();
        }
        block.copy_within(whole..filled, 0);
        filled -= whole;
        if filled == BLOCK || too_long {
            too_long = true;
            filled = 0;
        }
        match read_block(log, &mut block[filled..BLOCK], name) {
            Ok(count) => {
                filled += count;
                ended = count == 0;
            }
            Err(message) => {
                output.write_out()?;
                return Err(message);
            }
        }
    }
}

fn replay(page_name: &str, log_name: &str) -> Result<(), String> {
    let page = fs::read(page_name).map_err(|error| format!("{}: {}", page_name, error))?;
    let mut log = File::open(log_name).map_err(|error| format!("{}: {}", log_name, error))?;
    let mut output = Output::new();
    match judge(&page) {
        Err((number, word)) => {
            read_block(&mut log, &mut [0u8; 1], log_name)?;
            output.block.extend_from_slice(format!("page\t{}\t{}\n", number, word).as_bytes());
            output.write_out()
        }
        Ok(words) => decide_log(&mut log, log_name, &mut Pack::load(&words), &mut output),
    }
}

fn usage() -> ! {
    eprintln!("usage: plain replay PAGE LOG");
    process::exit(2)
}

fn main() {
    let arguments: Vec<String> =
        env::args_os().skip(1).map(|a| a.into_string().unwrap_or_else(|_| usage())).collect();
    let outcome = match arguments.iter().map(String::as_str).collect::<Vec<_>>()[..] {
        ["replay", page, log] => replay(page, log),
        _ => usage(),
    };
    if let Err(message) = outcome {
        eprintln!("plain: {}", message);
        process::exit(1);
    }
}
