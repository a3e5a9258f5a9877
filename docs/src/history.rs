//! history: the rules of document 01, worked out by looking back.
//!
//! No crates:  rustc -O --edition 2021 history.rs
//!
//! It is written from document 01, and from document 02 where its requests have landed, to be
//! compared with the pack keeper. It keeps every accepted sample since the load, and what was
//! decided at each, and answers every question by looking back over them. It has no run counters.
//!
//! This file has the rules: check byte, protections, page, sheet, sample, history, bleeding, words,
//! log, and at its end the command line. A sentence in quotes is document 01's, or document 02's where
//! that is said. What makes pages and logs to compare with, and the self test, stand in history/.

#[path = "history/cases.rs"]
mod cases;
#[path = "history/dice.rs"]
mod dice;
#[path = "history/long_log.rs"]
mod long_log;
#[path = "history/pages.rs"]
mod pages;
#[path = "history/rounds.rs"]
mod rounds;
#[path = "history/selftest.rs"]
mod selftest;
#[path = "history/sheets.rs"]
mod sheets;

use std::env;
use std::fs;
use std::io::{self, Read, Write};
use std::ops::{Range, RangeInclusive};
use std::process;

// ---- The check byte -----------------------------------------------------------------------

/// "polynomial x^8 + x^2 + x + 1": bits 8, 2, 1 and 0.
const POLYNOMIAL: u32 = 0b1_0000_0111;

/// "start 0, most significant bit first, no final change." Long division: what is left when the
/// message, followed by eight zero bits, is divided by the polynomial.
fn check_byte(message: &[u8]) -> u8 {
    let mut left = 0u32;
    for byte in message.iter().chain(&[0u8]) {
        for bit in (0..8).rev() {
            left = left << 1 | u32::from(byte >> bit & 1);
            if left >> 8 == 1 {
                left ^= POLYNOMIAL;
            }
        }
    }
    left as u8
}

// ---- The protections ----------------------------------------------------------------------

#[derive(Clone, Copy, PartialEq)]
enum Quantity {
    HighestCell,
    LowestCell,
    Current,
    Temperature1,
    Temperature2,
}

#[derive(Clone, Copy, PartialEq)]
enum Trips {
    AtOrAbove,
    AtOrBelow,
}

use Quantity::*;
use Trips::*;

/// The table "The eight protections", row p: quantity and direction. And "two more protections on
/// temperature 1, tripping at or below: 8 for charge, 9 for discharge" (document 02, request 07).
const PROTECTIONS: [(Quantity, Trips); 10] = [
    (HighestCell, AtOrAbove),  // 0 over voltage
    (LowestCell, AtOrBelow),   // 1 under voltage
    (Current, AtOrAbove),      // 2 over charge current
    (Current, AtOrBelow),      // 3 over discharge current
    (Current, AtOrBelow),      // 4 short current
    (Temperature1, AtOrAbove), // 5 charge over heat
    (Temperature1, AtOrAbove), // 6 discharge over heat
    (Temperature2, AtOrAbove), // 7 second thermistor
    (Temperature1, AtOrBelow), // 8 charge cold
    (Temperature1, AtOrBelow), // 9 discharge cold
];

/// "the number of the first raised one in the order 4, 3, 2, 0, 7, 6, 5", with the table's modes. 8
/// and 9 "have no mode number".
const MODES: [(usize, u16); 7] =
    [(4, 0x14), (3, 0x13), (2, 0x12), (0, 0x15), (7, 0x16), (6, 0x11), (5, 0x10)];

// ---- The settings page --------------------------------------------------------------------

/// What is refused, and why: the number of the row, and the word at fault.
#[derive(Clone, Copy, PartialEq, Debug)]
struct Refusal {
    number: u16,
    word: usize,
}

/// How a page of this length is laid out.
struct Layout {
    bytes: usize,
    mark: u16,
    reserved: [RangeInclusive<usize>; 2],
    protections: usize,
    /// The word that holds a zero byte and the check byte.
    last: usize,
}

/// The table "The settings page"; and "The new page has 160 bytes, mark 0x17A5, protections in
/// words 16 to 65, words 66 to 78 zero, byte 158 zero and in byte 159 the check byte of bytes
/// 0..158" (document 02, request 07).
static LAYOUTS: [Layout; 2] = [
    Layout { bytes: 128, mark: 0x17A4, reserved: [9..=15, 56..=62], protections: 8, last: 63 },
    Layout { bytes: 160, mark: 0x17A5, reserved: [9..=15, 66..=78], protections: 10, last: 79 },
];

/// "word 0 reads 0xA417"; "2 also for 0xA517", at either length.
const SWAPPED_MARKS: [u16; 2] = [0xA417, 0xA517];

impl Layout {
    /// "9..15 reserved", "56..62 reserved"; "On a 160-byte page refusal 5 looks at words 9 to 15,
    /// words 66 to 78 and byte 158".
    fn is_reserved(&self, word: usize) -> bool {
        self.reserved.iter().any(|reserved| reserved.contains(&word))
    }
    /// The words of all its protections.
    fn protection_words(&self) -> Range<usize> {
        first_word(0)..first_word(self.protections)
    }
}

/// An accepted page: its words, and how they are laid out.
#[derive(Clone)]
struct Page {
    layout: &'static Layout,
    words: Vec<u16>,
}

/// The table "The settings page", words 1 to 8: word, least, most.
const RANGES: [(usize, u16, u16); 8] = [
    (1, 2, 10),    // cells n
    (2, 1, 5),     // most cells bled at once, K
    (3, 1, 240),   // run limit R
    (4, 0, 6000),  // balance floor
    (5, 1, 6000),  // balance difference
    (6, 1, 32767), // charge detection current
    (7, 0, 6000),  // charging voltage per cell
    (8, 0, 32767), // charging current
];

/// The first word of protection p: "16+5p .. 20+5p: trip, release, N, M, switch mask".
fn first_word(p: usize) -> usize {
    16 + 5 * p
}

/// A trip or release word as the number it stands for: cells as they are, currents and
/// temperatures signed.
fn reading(quantity: Quantity, word: u16) -> i32 {
    match quantity {
        HighestCell | LowestCell => i32::from(word),
        Current | Temperature1 | Temperature2 => i32::from(word as i16),
    }
}

/// "Trip and release are 0..6000 for cells, any signed 16-bit value for current, -40..120 (signed)
/// for temperature."
fn level_range(quantity: Quantity) -> (i32, i32) {
    match quantity {
        HighestCell | LowestCell => (0, 6000),
        Current => (-32768, 32767),
        Temperature1 | Temperature2 => (-40, 120),
    }
}

/// Is this word of a protection out of its range? "N and M are 1..240. The mask is 0..3".
fn protection_word_at_fault(words: &[u16], word: usize) -> bool {
    let (quantity, _) = PROTECTIONS[(word - 16) / 5];
    let value = words[word];
    match (word - 16) % 5 {
        0 | 1 => {
            let (least, most) = level_range(quantity);
            let level = reading(quantity, value);
            level < least || level > most
        }
        2 | 3 => value < 1 || value > 240,
        _ => value > 3,
    }
}

/// "'At or above' releases at or below the release level, which must be less than trip. 'At or
/// below' releases at or above its release level, which must be greater."
fn order_at_fault(words: &[u16], p: usize) -> bool {
    let (quantity, trips) = PROTECTIONS[p];
    let trip = reading(quantity, words[first_word(p)]);
    let release = reading(quantity, words[first_word(p) + 1]);
    match trips {
        AtOrAbove => release >= trip,
        AtOrBelow => release <= trip,
    }
}

/// The words of a page: "128 bytes, 64 words, low byte first."
fn words_of(page: &[u8]) -> Vec<u16> {
    page.chunks(2).map(|pair| u16::from(pair[0]) + 256 * u16::from(pair[1])).collect()
}

/// Rows 1 to 8 of "Refusal numbers". "the lowest number that applies is given. Refusals 5 to 8
/// name the lowest word at fault (for 8, the trip word); the others name word 0."
fn judge(page: &[u8]) -> Result<Page, Refusal> {
    let refuse = |number, word| Err(Refusal { number, word });
    // "Refusal 1 is now given for a length other than 128 or 160"
    let layout = match LAYOUTS.iter().find(|layout| layout.bytes == page.len()) {
        None => return refuse(1, 0),
        Some(layout) => layout,
    };
    let words = words_of(page);
    if SWAPPED_MARKS.contains(&words[0]) {
        return refuse(2, 0);
    }
    // "3 if the mark doesn't fit the length"
    if words[0] != layout.mark {
        return refuse(3, 0);
    }
    // "high byte is the check byte of bytes 0..126"; "in byte 159 the check byte of bytes 0..158"
    let zero_byte = 2 * layout.last;
    if page[zero_byte + 1] != check_byte(&page[..=zero_byte]) {
        return refuse(4, 0);
    }
    // "a reserved word, or byte 126 (as word 63), isn't 0"; "byte 158, which is named as word 79"
    if let Some(word) = (0..layout.last).find(|&word| layout.is_reserved(word) && words[word] != 0)
    {
        return refuse(5, word);
    }
    if page[zero_byte] != 0 {
        return refuse(5, layout.last);
    }
    for (word, least, most) in RANGES {
        if words[word] < least || words[word] > most {
            return refuse(6, word);
        }
    }
    if let Some(word) = layout.protection_words().find(|&w| protection_word_at_fault(&words, w)) {
        return refuse(7, word);
    }
    if let Some(p) = (0..layout.protections).find(|&p| order_at_fault(&words, p)) {
        return refuse(8, first_word(p));
    }
    Ok(Page { layout, words })
}

impl Page {
    /// The protections that it has. "On a 128-byte page 8 and 9 never rise" (document 02, request
    /// 07).
    fn protections(&self) -> Range<usize> {
        0..self.layout.protections
    }
    /// "cells n"
    fn n(&self) -> usize {
        usize::from(self.words[1])
    }
    /// "most cells bled at once, K"
    fn most_bled(&self) -> u32 {
        u32::from(self.words[2])
    }
    /// "run limit R"
    fn run_limit(&self) -> usize {
        usize::from(self.words[3])
    }
    fn floor(&self) -> u16 {
        self.words[4]
    }
    fn difference(&self) -> u16 {
        self.words[5]
    }
    /// "charge detection current", 1..32767
    fn detection(&self) -> i32 {
        i32::from(self.words[6])
    }
    /// "n × word 7"
    fn charging_voltage(&self) -> u16 {
        self.words[1] * self.words[7]
    }
    fn charging_current(&self) -> u16 {
        self.words[8]
    }
    /// Twice the level that a trip or release word stands for, in the unit of the samples: twice,
    /// so that it is whole.
    fn twice_level(&self, p: usize, word: usize) -> i32 {
        let (quantity, _) = PROTECTIONS[p];
        let number = reading(quantity, self.words[word]);
        match quantity {
            // "C degrees now stand for exactly 10 × C + 2731.5 tenths" (document 02, request 02)
            Temperature1 | Temperature2 => 20 * number + 5463,
            _ => 2 * number,
        }
    }
    fn twice_trip(&self, p: usize) -> i32 {
        self.twice_level(p, first_word(p))
    }
    fn twice_release(&self, p: usize) -> i32 {
        self.twice_level(p, first_word(p) + 1)
    }
    /// N of protection p.
    fn trip_samples(&self, p: usize) -> usize {
        usize::from(self.words[first_word(p) + 2])
    }
    /// M of protection p.
    fn release_samples(&self, p: usize) -> usize {
        usize::from(self.words[first_word(p) + 3])
    }
    fn mask(&self, p: usize) -> u16 {
        self.words[first_word(p) + 4]
    }
}

// ---- The sheet ----------------------------------------------------------------------------

/// "Names are a fixed list kept in docs/" (document 02, request 04): 64 for the page of 128 bytes,
/// then 80 for the one of 160.
struct Names(Vec<String>);

impl Names {
    fn of(&self, layout: &Layout, word: usize) -> &str {
        let before = if layout.bytes == 128 { 0 } else { 64 };
        &self.0[before + word]
    }
}

/// "each ended by a newline, of number, name and value parted by tabs: words 0 to 62 in order, then
/// the check byte as 63", or "the check byte as 79".
fn sheet_of(page: &[u8], layout: &Layout, names: &Names) -> Vec<u8> {
    let values = words_of(page);
    let mut text = vec![];
    for word in 0..=layout.last {
        let value =
            if word < layout.last { values[word] } else { u16::from(page[layout.bytes - 1]) };
        let line = format!("{}\t{}\t{}\n", word, names.of(layout, word), value);
        text.extend(line.into_bytes());
    }
    text
}

/// The writer: the page's refusals, or its sheet.
fn write_sheet(page: &[u8], names: &Names) -> Result<Vec<u8>, Refusal> {
    let judged = judge(page)?;
    Ok(sheet_of(page, judged.layout, names))
}

/// The value of a good line. "A line is bad if its number, name, form or value's size (16 bits; 8
/// for the check byte) is wrong". "Values are unsigned decimal without leading zeros."
fn value_in(line: &[u8], word: usize, layout: &Layout, names: &Names) -> Option<u16> {
    let fields: Vec<&[u8]> = line.strip_suffix(b"\n")?.split(|&byte| byte == b'\t').collect();
    let most = if word == layout.last { 255 } else { 65535 };
    match fields[..] {
        [place, name, value]
            if place == word.to_string().as_bytes()
                && name == names.of(layout, word).as_bytes() =>
        {
            number(value, most).map(|value| value as u16)
        }
        _ => None,
    }
}

/// "A sheet whose first line holds the new mark has 80 lines" (document 02, request 07).
fn layout_of_sheet(lines: &[&[u8]], names: &Names) -> &'static Layout {
    let long = &LAYOUTS[1];
    match lines.first().and_then(|line| value_in(line, 0, long, names)) {
        Some(mark) if mark == long.mark => long,
        _ => &LAYOUTS[0],
    }
}

/// The values of a sheet, or "19 and the first bad line's number, from 1". A line is also bad if
/// "it is missing or extra".
fn values_of(text: &[u8], names: &Names) -> Result<(&'static Layout, Vec<u16>), Refusal> {
    let lines: Vec<&[u8]> = text.split_inclusive(|&byte| byte == b'\n').collect();
    let layout = layout_of_sheet(&lines, names);
    let bad = |line: usize| Refusal { number: 19, word: line };
    let mut values = vec![];
    for word in 0..=layout.last {
        let line: &[u8] = lines.get(word).copied().unwrap_or(b"");
        values.push(value_in(line, word, layout, names).ok_or_else(|| bad(word + 1))?);
    }
    if lines.len() > layout.last + 1 {
        return Err(bad(layout.last + 2));
    }
    Ok((layout, values))
}

/// The page that the values say. Its last word is a zero byte, which no line has, and the check byte.
fn page_said(layout: &Layout, values: &[u16]) -> Vec<u8> {
    let mut words = values.to_vec();
    words[layout.last] *= 256;
    words.iter().flat_map(|word| word.to_le_bytes()).collect()
}

/// The reader into a buffer of this size: "If no line is bad, a page buffer of another size gives 1,
/// else the page's own refusal is given, if any."
fn read_sheet(text: &[u8], size: usize, names: &Names) -> Result<Vec<u8>, Refusal> {
    let (layout, values) = values_of(text, names)?;
    if size != layout.bytes {
        return Err(Refusal { number: 1, word: 0 });
    }
    let page = page_said(layout, &values);
    judge(&page).map(|_| page)
}

/// The program `unsheet`, whose buffer has the size that the sheet asks for.
fn unsheet(text: &[u8], names: &Names) -> Result<Vec<u8>, Refusal> {
    let (layout, _) = values_of(text, names)?;
    read_sheet(text, layout.bytes, names)
}

/// The program `seal`: the sheet with the check byte of the page's other bytes, not judged.
fn seal_sheet(text: &[u8], names: &Names) -> Result<Vec<u8>, Refusal> {
    let (layout, values) = values_of(text, names)?;
    let mut page = page_said(layout, &values);
    let last = layout.bytes - 1;
    page[last] = check_byte(&page[..last]);
    Ok(sheet_of(&page, layout, names))
}

// ---- Samples ------------------------------------------------------------------------------

#[derive(Clone)]
struct Sample {
    current: i16,
    temperature_1: u16,
    temperature_2: u16,
    cells: Vec<u16>,
}

impl Sample {
    fn highest(&self) -> u16 {
        self.cells.iter().copied().max().unwrap_or(0)
    }
    fn lowest(&self) -> u16 {
        self.cells.iter().copied().min().unwrap_or(0)
    }
    /// "its number, the lowest number where cells are equal" (document 02, request 03): the first
    /// cell, counted from 1, that has these millivolts.
    fn number_of(&self, millivolts: u16) -> u16 {
        self.cells.iter().position(|&cell| cell == millivolts).map_or(0, |place| place as u16 + 1)
    }
    /// "sum of the cells": at most 10 × 6000.
    fn sum(&self) -> u16 {
        self.cells.iter().sum()
    }
    fn quantity(&self, quantity: Quantity) -> i32 {
        match quantity {
            HighestCell => i32::from(self.highest()),
            LowestCell => i32::from(self.lowest()),
            Current => i32::from(self.current),
            Temperature1 => i32::from(self.temperature_1),
            Temperature2 => i32::from(self.temperature_2),
        }
    }
}

/// Rows 9 to 11.
fn judge_sample(page: &Page, sample: &Sample) -> Result<(), u16> {
    let outside = |temperature: u16| !(2000..=4500).contains(&temperature);
    if sample.cells.len() != page.n() {
        return Err(9);
    }
    if sample.cells.iter().any(|&cell| cell > 6000) {
        return Err(10);
    }
    if outside(sample.temperature_1) || outside(sample.temperature_2) {
        return Err(11);
    }
    Ok(())
}

// ---- The history --------------------------------------------------------------------------

fn bit(word: u16, place: usize) -> bool {
    word >> place & 1 == 1
}

/// Everything since the load. Entry i of `raised` and of `bled` is what was decided at entry i of
/// `samples`: bit p for raised p, bit k - 1 for bled cell k. "in the replay's raised field 8 and 9"
/// are bits 8 and 9 too (document 02, request 07).
struct History {
    page: Page,
    samples: Vec<Sample>,
    raised: Vec<u16>,
    bled: Vec<u16>,
    commanded: u16,
}

/// Are there `count` entries, and do the last `count` all pass the test?
fn last_all<T>(entries: &[T], count: usize, test: impl Fn(&T) -> bool) -> bool {
    entries.len() >= count && entries.iter().rev().take(count).all(test)
}

impl History {
    /// "at load it is 0": the host's command.
    fn load(page: Page) -> History {
        History { page, samples: vec![], raised: vec![], bled: vec![], commanded: 0 }
    }

    /// "A refusal changes no state [..], and a refused sample isn't counted as a sample."
    fn offer(&mut self, sample: Sample) -> Result<(), u16> {
        judge_sample(&self.page, &sample)?;
        self.samples.push(sample);
        // "Order at a sample: protections first, then bleeding with the new protections."
        let raised = self.decide_raised();
        self.raised.push(raised);
        let bled = self.decide_bled();
        self.bled.push(bled);
        Ok(())
    }

    /// "switch command above 3" gives 16. "A command acts at once and touches nothing else."
    fn command(&mut self, number: u16) -> Result<(), u16> {
        if number > 3 {
            return Err(16);
        }
        self.commanded = number;
        Ok(())
    }

    // ---- Protections ----

    fn trips(&self, p: usize, sample: &Sample) -> bool {
        let (quantity, trips) = PROTECTIONS[p];
        match trips {
            AtOrAbove => 2 * sample.quantity(quantity) >= self.page.twice_trip(p),
            AtOrBelow => 2 * sample.quantity(quantity) <= self.page.twice_trip(p),
        }
    }

    fn releases(&self, p: usize, sample: &Sample) -> bool {
        let (quantity, trips) = PROTECTIONS[p];
        match trips {
            AtOrAbove => 2 * sample.quantity(quantity) <= self.page.twice_release(p),
            AtOrBelow => 2 * sample.quantity(quantity) >= self.page.twice_release(p),
        }
    }

    /// "Clear: it is raised at a sample if the last N accepted samples, this one included, all
    /// trip. Raised: it is released if the last M accepted samples all meet the release
    /// condition. Only samples since the load count."
    fn is_raised_after(&self, p: usize, raised_before: bool) -> bool {
        if raised_before {
            !last_all(&self.samples, self.page.release_samples(p), |s| self.releases(p, s))
        } else {
            last_all(&self.samples, self.page.trip_samples(p), |s| self.trips(p, s))
        }
    }

    /// The raised word at the sample just pushed; `self.raised` still ends at the one before.
    fn decide_raised(&self) -> u16 {
        let before = self.raised_now();
        let raised = |p: &usize| self.is_raised_after(*p, bit(before, *p));
        self.page.protections().filter(raised).map(|p| 1 << p).sum()
    }

    // ---- Bleeding ----

    /// "A cell wants bleeding if the current is at least the charge detection current, no
    /// protection is raised, the cell is at or above the floor, and it exceeds the lowest cell by
    /// more than the difference."
    fn wants(&self, sample: &Sample, cell: usize) -> bool {
        let millivolts = sample.cells[cell - 1];
        i32::from(sample.current) >= self.page.detection()
            && self.raised_now() == 0
            && millivolts >= self.page.floor()
            && millivolts - sample.lowest() > self.page.difference()
    }

    /// "A cell is resting if it was bled at each of the R accepted samples just before this one;
    /// with fewer than R before it since the load, none rests." `self.bled` ends just before.
    fn rests(&self, cell: usize) -> bool {
        last_all(&self.bled, self.page.run_limit(), |&bled| bit(bled, cell - 1))
    }

    /// "The start cell is 1 at the first sample after a load and goes on by one at each accepted
    /// sample, from n to 1." The sample it is asked for is the last one pushed.
    fn start_cell(&self) -> usize {
        (self.samples.len() - 1) % self.page.n() + 1
    }

    /// "Walk all cells once from the start cell, wrapping. Take a cell if it wants bleeding, isn't
    /// resting, has no neighbour already taken, and fewer than K are taken."
    fn decide_bled(&self) -> u16 {
        let sample = &self.samples[self.samples.len() - 1];
        let n = self.page.n();
        let mut taken = 0u16;
        for step in 0..n {
            let cell = (self.start_cell() - 1 + step) % n + 1;
            if self.wants(sample, cell)
                && !self.rests(cell)
                && !neighbour_taken(taken, cell)
                && taken.count_ones() < self.page.most_bled()
            {
                taken |= 1 << (cell - 1);
            }
        }
        taken
    }

    // ---- What stands now: the latest sample, and the switches ----

    fn raised_now(&self) -> u16 {
        self.raised.last().copied().unwrap_or(0)
    }

    fn bled_now(&self) -> u16 {
        self.bled.last().copied().unwrap_or(0)
    }

    /// Does a raised protection have this bit of its mask? "bit 0 blocks charge, bit 1 blocks
    /// discharge".
    fn blocked(&self, switch: usize) -> bool {
        self.page.protections().any(|p| bit(self.raised_now(), p) && bit(self.page.mask(p), switch))
    }

    /// "A switch is on exactly if at least one sample was accepted, its bit is commanded, and no
    /// raised protection has its mask bit."
    fn switch_on(&self, switch: usize) -> bool {
        !self.samples.is_empty() && bit(self.commanded, switch) && !self.blocked(switch)
    }

    /// "bit 0 charge on and bit 1 discharge on"
    fn fets(&self) -> u16 {
        u16::from(self.switch_on(0)) + 2 * u16::from(self.switch_on(1))
    }

    /// "Mode: 0 before the first sample; else the number of the first raised one [..]; else 0x03
    /// if current is at least charge detection; else 0x02."
    fn mode(&self) -> u16 {
        let sample = match self.samples.last() {
            None => return 0,
            Some(sample) => sample,
        };
        if let Some(&(_, mode)) = MODES.iter().find(|(p, _)| bit(self.raised_now(), *p)) {
            return mode;
        }
        if i32::from(sample.current) >= self.page.detection() {
            0x03
        } else {
            0x02
        }
    }

    /// "`tick` is the count of accepted samples modulo 1000000"
    fn tick(&self) -> usize {
        self.samples.len() % 1000000
    }

    // ---- Words on the bus ----

    /// "Battery status": each bit and when it is set.
    fn status(&self, sample: &Sample) -> u16 {
        let raised = self.raised_now();
        let below_detection = i32::from(sample.current) < self.page.detection();
        [
            (0x8000, bit(raised, 0)),
            (0x4000, self.blocked(0)),
            // "status 0x1000 stays with 5, 6 and 7" (document 02, request 07)
            (0x1000, bit(raised, 5) || bit(raised, 6) || bit(raised, 7)),
            (0x0800, self.blocked(1)),
            (0x0080, true),
            (0x0040, below_detection),
        ]
        .iter()
        .filter(|(_, set)| *set)
        .map(|(value, _)| *value)
        .sum()
    }

    /// "bit p for raised p; bit 8 charge switch on, bit 9 discharge switch on"; 8 and 9 "are bits
    /// 10 and 11" (document 02, request 07).
    fn raised_and_switches(&self) -> u16 {
        let (first_eight, cold) = (self.raised_now() % 256, self.raised_now() / 256);
        first_eight + 256 * self.fets() + 1024 * cold
    }

    /// The table "Words on the bus", for a command that is in it, after the first sample.
    fn word(&self, command: u8, sample: &Sample) -> u16 {
        match command {
            0x08 => sample.temperature_1,
            0x44 => sample.temperature_2,
            0x09 | 0x42 => sample.sum(),
            0x0A => sample.current as u16,
            0x14 | 0x15 if self.blocked(0) => 0,
            0x14 => self.page.charging_current(),
            0x15 => self.page.charging_voltage(),
            0x16 => self.status(sample),
            0x30..=0x39 => sample.cells[usize::from(command - 0x30)],
            0x45 => self.raised_and_switches(),
            0x46 => self.bled_now(),
            // "the highest cell's number in the low byte and the lowest cell's in the high byte"
            0x47 => sample.number_of(sample.highest()) + 256 * sample.number_of(sample.lowest()),
            _ => self.mode(), // 0x41
        }
    }

    /// Rows 12 to 15, and the reply: "three bytes: low, high, and the check byte of 0x16, the
    /// command, 0x17, low, high."
    fn reply(&self, command: u8, room: usize) -> Result<[u8; 3], u16> {
        if !in_table(command) {
            return Err(12);
        }
        if (0x30..=0x39).contains(&command) && usize::from(command - 0x30) + 1 > self.page.n() {
            return Err(13);
        }
        if room != 3 {
            return Err(14);
        }
        let word = match self.samples.last() {
            Some(sample) => self.word(command, sample),
            None if command == 0x41 => self.mode(),
            None => return Err(15),
        };
        let (low, high) = (word as u8, (word >> 8) as u8);
        Ok([low, high, check_byte(&[0x16, command, 0x17, low, high])])
    }
}

/// "Cells k and k + 1 are neighbours; 1 and n are not unless n = 2."
fn neighbour_taken(taken: u16, cell: usize) -> bool {
    let below = cell > 1 && bit(taken, cell - 2);
    let above = bit(taken, cell);
    below || above
}

/// The table "Words on the bus", and "command 0x47, new with us" (document 02, request 03).
fn in_table(command: u8) -> bool {
    matches!(command, 0x08 | 0x09 | 0x0A | 0x14..=0x16 | 0x30..=0x39 | 0x41 | 0x42 | 0x44..=0x47)
}

// ---- The log ------------------------------------------------------------------------------

enum Line {
    Command(u16),
    Sample(Sample),
}

/// "The last line need not end, and nothing after a final newline is a line."
fn lines(log: &[u8]) -> Vec<&[u8]> {
    let mut lines: Vec<&[u8]> = log.split(|&byte| byte == b'\n').collect();
    if lines.last().map_or(false, |last| last.is_empty()) {
        lines.pop();
    }
    lines
}

/// "Numbers are decimal, without leading zeros"; `None` also if above `most`.
fn number(field: &[u8], most: u32) -> Option<u32> {
    let digits = !field.is_empty() && field.iter().all(|byte| byte.is_ascii_digit());
    let leading_zero = field.len() > 1 && field[0] == b'0';
    if !digits || leading_zero || field.len() > 5 {
        return None;
    }
    let value = field.iter().fold(0, |value, digit| 10 * value + u32::from(digit - b'0'));
    Some(value).filter(|&value| value <= most)
}

/// "every other field 0..65535"
fn word_field(field: &[u8]) -> Option<u16> {
    number(field, 65535).map(|value| value as u16)
}

/// "The current is -32768..32767"; "only the current may have a minus"; no `-0`.
fn current_field(field: &[u8]) -> Option<i16> {
    match field.split_first() {
        Some((b'-', rest)) => {
            let size = number(rest, 32768).filter(|&size| size != 0)?;
            Some((-(size as i32)) as i16)
        }
        _ => number(field, 32767).map(|value| value as i16),
    }
}

/// "`F` has the command; `S` has current, temperature 1, temperature 2 and the cells." `None` is a
/// malformed line.
fn read_line(line: &[u8]) -> Option<Line> {
    if line.len() > 128 {
        return None;
    }
    let fields: Vec<&[u8]> = line.split(|&byte| byte == b'\t').collect();
    match fields[0] {
        b"F" if fields.len() == 2 => Some(Line::Command(word_field(fields[1])?)),
        b"S" if fields.len() >= 4 && fields.len() <= 4 + 10 => Some(Line::Sample(Sample {
            current: current_field(fields[1])?,
            temperature_1: word_field(fields[2])?,
            temperature_2: word_field(fields[3])?,
            cells: fields[4..].iter().map(|field| word_field(field)).collect::<Option<_>>()?,
        })),
        _ => None,
    }
}

impl History {
    /// "A malformed line is no sample and no command: it gives 17".
    fn take_line(&mut self, line: &[u8]) -> Result<(), u16> {
        match read_line(line) {
            None => Err(17),
            Some(Line::Command(number)) => self.command(number),
            Some(Line::Sample(sample)) => self.offer(sample),
        }
    }
}

// ---- The replay program, and the words after it -------------------------------------------

fn write_refused_page(refusal: Refusal, out: &mut dyn Write) -> io::Result<()> {
    writeln!(out, "page\t{}\t{}", refusal.number, refusal.word)
}

/// "A refused page gives one line: `page`, number, word. Otherwise a header, then one line per log
/// line."
fn replay(page: &[u8], log: &[u8], out: &mut dyn Write) -> io::Result<()> {
    let mut history = match judge(page) {
        Err(refusal) => return write_refused_page(refusal, out),
        Ok(page) => History::load(page),
    };
    writeln!(out, "tick\traised\tfets\tbalance\tmode")?;
    for line in lines(log) {
        match history.take_line(line) {
            Err(number) => writeln!(out, "refused\t{}", number)?,
            Ok(()) => writeln!(
                out,
                "{}\t{}\t{}\t{}\t{}",
                history.tick(),
                history.raised_now(),
                history.fets(),
                history.bled_now(),
                history.mode()
            )?,
        }
    }
    Ok(())
}

/// The reply to each command 00 to ff, with room for three bytes, after the log.
fn words_after(page: &[u8], log: &[u8], out: &mut dyn Write) -> io::Result<()> {
    let mut history = match judge(page) {
        Err(refusal) => return write_refused_page(refusal, out),
        Ok(page) => History::load(page),
    };
    for line in lines(log) {
        // A refused line changes nothing.
        let _ = history.take_line(line);
    }
    for command in 0..=255u8 {
        match history.reply(command, 3) {
            Ok(reply) => writeln!(out, "{:02x}\t{}", command, hex(&reply))?,
            Err(number) => writeln!(out, "{:02x}\trefused\t{}", command, number)?,
        }
    }
    Ok(())
}

fn hex(bytes: &[u8]) -> String {
    bytes.iter().map(|byte| format!("{:02x}", byte)).collect()
}

// ---- The command line ---------------------------------------------------------------------

const USAGE: &str = "usage: history replay PAGE LOG        the replay program
       history words PAGE LOG         the reply to each command after the log
       history judge PAGE...          `number word` or `accepted`, for each page
       history pages SEED COUNT       pages in hex, with the judge's answers
       history cases SEED COUNT DIR   pages and logs, as DIR/K.page and DIR/K.log
       history big SEED LINES N       a long log for a pack of N cells
       history bigpage N              a page that fits it
       history mkpage                 a page from lines of `word value`
       history sheet NAMES PAGE       the page as a sheet; NAMES is docs/sheet-names.txt
       history unsheet NAMES SHEET    the page that a sheet says
       history seal NAMES SHEET       the sheet with the right check byte
       history sheets NAMES SEED PAGES SHEETS DIR
                                      pages and sheets, some damaged, and what comes of them
       history sheetcalls NAMES SEED COUNT
                                      pages and sheets in hex, with what C is answered
       history selftest               the documents' samples";

fn file_error(name: &str, error: io::Error) -> String {
    format!("{}: {}", name, error)
}

fn stdout_error(error: io::Error) -> String {
    file_error("standard output", error)
}

fn read_file(name: &str) -> Result<Vec<u8>, String> {
    fs::read(name).map_err(|error| file_error(name, error))
}

/// The list of names, a line each.
fn read_names(name: &str) -> Result<Names, String> {
    let text = String::from_utf8_lossy(&read_file(name)?).into_owned();
    let names: Vec<String> = text.lines().map(str::to_string).collect();
    if names.len() != 144 {
        return Err(format!("{}: {} names, not 144", name, names.len()));
    }
    Ok(Names(names))
}

/// What came of a file, or its refusal as a message.
fn write_or_refuse(
    name: &str,
    answer: Result<Vec<u8>, Refusal>,
    out: &mut dyn Write,
) -> Result<(), String> {
    match answer {
        Ok(bytes) => out.write_all(&bytes).map_err(stdout_error),
        Err(refusal) => Err(format!("{}: refused {} {}", name, refusal.number, refusal.word)),
    }
}

/// A number of the command line; a bad one gets the usage.
fn argument(text: &str) -> u64 {
    text.parse().unwrap_or_else(|_| usage())
}

/// The number of cells on the command line, 2..10.
fn cells_argument(text: &str) -> u16 {
    match argument(text) {
        n @ 2..=10 => n as u16,
        _ => usage(),
    }
}

fn usage() -> ! {
    eprintln!("{}", USAGE);
    process::exit(2)
}

fn write_judgements(names: &[&str], out: &mut dyn Write) -> Result<(), String> {
    for name in names {
        match judge(&read_file(name)?) {
            Ok(_) => writeln!(out, "accepted"),
            Err(refusal) => writeln!(out, "{} {}", refusal.number, refusal.word),
        }
        .map_err(stdout_error)?;
    }
    Ok(())
}

fn run(arguments: &[&str], out: &mut dyn Write) -> Result<(), String> {
    match arguments {
        ["replay", page, log] => {
            let (page, log) = (read_file(page)?, read_file(log)?);
            replay(&page, &log, out).map_err(stdout_error)
        }
        ["words", page, log] => {
            let (page, log) = (read_file(page)?, read_file(log)?);
            words_after(&page, &log, out).map_err(stdout_error)
        }
        ["judge", names @ ..] if !names.is_empty() => write_judgements(names, out),
        ["pages", seed, count] => pages::write_pages(argument(seed), argument(count) as usize, out),
        ["cases", seed, count, directory] => {
            cases::write_cases(argument(seed), argument(count), directory)
        }
        ["big", seed, count, n] => {
            let n = usize::from(cells_argument(n));
            long_log::write_big(argument(seed), argument(count), n, out).map_err(stdout_error)
        }
        ["bigpage", n] => {
            let words = pages::everyday_words(pages::short(), cells_argument(n));
            out.write_all(&pages::page_of(&words)).map_err(stdout_error)
        }
        ["mkpage"] => {
            let mut list = String::new();
            let read = io::stdin().read_to_string(&mut list);
            read.map_err(|error| file_error("standard input", error))?;
            out.write_all(&pages::page_from_list(&list)?).map_err(stdout_error)
        }
        ["sheet", names, page] => {
            let answer = write_sheet(&read_file(page)?, &read_names(names)?);
            write_or_refuse(page, answer, out)
        }
        ["unsheet", names, sheet] => {
            let answer = unsheet(&read_file(sheet)?, &read_names(names)?);
            write_or_refuse(sheet, answer, out)
        }
        ["seal", names, sheet] => {
            let answer = seal_sheet(&read_file(sheet)?, &read_names(names)?);
            write_or_refuse(sheet, answer, out)
        }
        ["sheets", names, seed, pages, sheets, directory] => sheets::write_sheets(
            &read_names(names)?,
            argument(seed),
            argument(pages),
            argument(sheets),
            directory,
        ),
        ["sheetcalls", names, seed, count] => {
            sheets::write_calls(&read_names(names)?, argument(seed), argument(count), out)
        }
        ["selftest"] if selftest::selftest() => Ok(()),
        ["selftest"] => Err("the self test failed".to_string()),
        _ => usage(),
    }
}

fn main() {
    let arguments: Vec<String> =
        env::args_os().skip(1).map(|a| a.into_string().unwrap_or_else(|_| usage())).collect();
    let arguments: Vec<&str> = arguments.iter().map(String::as_str).collect();
    let mut out = io::BufWriter::with_capacity(1 << 16, io::stdout());
    let outcome = run(&arguments, &mut out);
    let outcome = outcome.and(out.flush().map_err(stdout_error));
    if let Err(message) = outcome {
        eprintln!("history: {}", message);
        process::exit(1);
    }
}
