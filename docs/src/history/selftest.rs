//! The samples of documents 01 and 02, worked by the rules.

use super::cases::case;
use super::dice::Dice;
use super::pages::*;
use super::rounds::{check_the_rounds, three_cells};
use super::sheets::check_the_sheets;
use super::*;
use std::collections::BTreeSet;

/// Counts what holds; names what does not.
pub struct Checks {
    passed: u32,
    failed: u32,
}

impl Checks {
    pub(crate) fn that(&mut self, what: &str, holds: bool) {
        if holds {
            self.passed += 1;
        } else {
            self.failed += 1;
            eprintln!("selftest: does not hold: {}", what);
        }
    }
}

/// An everyday page of n cells with these words changed.
fn changed(layout: &Layout, n: u16, changes: &[(usize, i64)]) -> Vec<u8> {
    let mut words = everyday_words(layout, n);
    for (word, value) in changes {
        words[*word] = level_word(*value);
    }
    page_of(&words)
}

pub(crate) fn accepted(page: &[u8]) -> Page {
    match judge(page) {
        Ok(page) => page,
        Err(refusal) => panic!("a page of the self test is refused: {:?}", refusal),
    }
}

pub(crate) fn page_with(n: u16, changes: &[(usize, i64)]) -> Page {
    accepted(&changed(short(), n, changes))
}

fn long_page_with(n: u16, changes: &[(usize, i64)]) -> Page {
    accepted(&changed(long(), n, changes))
}

pub(crate) fn sample_of(current: i16, cells: &[u16]) -> Sample {
    Sample { current, temperature_1: 2980, temperature_2: 2980, cells: cells.to_vec() }
}

fn check_the_check_byte(checks: &mut Checks) {
    checks.that("check byte of nothing is 0x00", check_byte(&[]) == 0x00);
    checks.that("check byte of 0x01 is 0x07", check_byte(&[0x01]) == 0x07);
    checks.that("check byte of 123456789 is 0xF4", check_byte(b"123456789") == 0xF4);
}

fn check_the_debounce(checks: &mut Checks) {
    let page = page_with(2, &[(16, 4250), (17, 4150), (18, 3), (19, 2)]);
    let mut history = History::load(page);
    let highest = [4250, 4250, 4249, 4250, 4250, 4250, 4150, 4151, 4150, 4150];
    let raised = [0, 0, 0, 0, 0, 1, 1, 1, 1, 0];
    for (place, (cell, raised)) in highest.iter().zip(raised).enumerate() {
        let accepted = history.offer(sample_of(0, &[4000, *cell])).is_ok();
        let what = format!("debounce, sample {}", place + 1);
        checks.that(&what, accepted && history.raised_now() == raised);
        // Refused samples between neither break nor extend a run.
        let refused = history.offer(sample_of(0, &[4000])) == Err(9)
            && history.offer(sample_of(0, &[6001, 4000])) == Err(10);
        checks.that("a refused sample changes nothing", refused && history.raised_now() == raised);
    }
}

fn check_the_bleeding(checks: &mut Checks) {
    let (page, samples) = three_cells();
    let mut history = History::load(page);
    let bled = [0, 0, 1, 4, 2, 4, 1];
    for (place, (sample, bled)) in samples.into_iter().zip(bled).enumerate() {
        let accepted = history.offer(sample).is_ok();
        let what = format!("n 3, K 1, R 1: sample {}", place + 1);
        checks.that(&what, accepted && history.bled_now() == bled);
    }
    let page = page_with(4, &[(2, 5), (3, 1), (4, 3900), (5, 10), (6, 100)]);
    let mut history = History::load(page);
    for place in 0..12 {
        let accepted = history.offer(sample_of(500, &[4000, 4000, 4020, 4000])).is_ok();
        let bled = if place % 2 == 0 { 4 } else { 0 };
        let what = "R 1, one cell always wanting: bled at every second sample";
        checks.that(what, accepted && history.bled_now() == bled);
    }
    let page = page_with(3, &[(2, 5), (3, 9), (4, 3900), (5, 10), (6, 100)]);
    let mut history = History::load(page);
    let accepted = history.offer(sample_of(500, &[4020, 4000, 4020])).is_ok();
    checks.that("1 and n are no neighbours", accepted && history.bled_now() == 5);
}

fn check_the_words(checks: &mut Checks) {
    let mut history = History::load(page_with(2, &[]));
    let sent = |history: &History, command| history.reply(command, 3).map(|r| [r[0], r[1]]);
    checks.that("0x41 before a sample is 0", sent(&history, 0x41) == Ok([0, 0]));
    checks.that("0x45 before a sample gives 15", sent(&history, 0x45) == Err(15));
    checks.that("0x32 for two cells gives 13", sent(&history, 0x32) == Err(13));
    checks.that("0x3A gives 12", sent(&history, 0x3A) == Err(12));
    checks.that("0x41 with a wrong buffer gives 14", history.reply(0x41, 2) == Err(14));
    for (current, bytes) in [(-2, [0xFE, 0xFF]), (-32768, [0x00, 0x80])] {
        let accepted = history.offer(sample_of(current, &[4000, 4000])).is_ok();
        let what = format!("current {} as sent", current);
        checks.that(&what, accepted && sent(&history, 0x0A) == Ok(bytes));
    }
    let frame = [0x16, 0x0A, 0x17, 0x00, 0x80];
    let reply = history.reply(0x0A, 3);
    checks.that("the check byte of a reply", reply == Ok([0x00, 0x80, check_byte(&frame)]));
}

/// Request 03: which cell is the highest and which the lowest.
fn check_the_numbers(checks: &mut Checks) {
    let ten = [3000, 3100, 3100, 3100, 3100, 3100, 3100, 3100, 3100, 3200];
    let mut ten_back = ten;
    ten_back.reverse();
    for (cells, word) in [
        (&[4000, 4020, 4020, 3990, 3990][..], 0x0402),
        (&[4000; 5][..], 0x0101),
        (&[4000; 2][..], 0x0101),
        (&[4000, 4001][..], 0x0102),
        (&ten[..], 0x010A),
        (&ten_back[..], 0x0A01),
        (&[3990, 4020, 3990, 4020][..], 0x0102),
        (&[4020, 3990, 4020, 3990][..], 0x0201),
        (&[0, 6000, 0][..], 0x0102),
    ] {
        let mut history = History::load(page_with(cells.len() as u16, &[]));
        let asked = |history: &History, room| history.reply(0x47, room);
        checks.that("0x47 before a sample gives 15", asked(&history, 3) == Err(15));
        checks.that("0x47 with a wrong buffer gives 14", asked(&history, 2) == Err(14));
        let accepted = history.offer(sample_of(0, cells)).is_ok();
        let (low, high) = (word as u8, (word >> 8) as u8);
        let check = check_byte(&[0x16, 0x47, 0x17, low, high]);
        let what = format!("0x47 of the cells {:?}", cells);
        checks.that(&what, accepted && asked(&history, 3) == Ok([low, high, check]));
        checks.that("0x47 with a wrong buffer gives 14", asked(&history, 4) == Err(14));
        let refused = history.offer(sample_of(0, &vec![6001; cells.len()])) == Err(10);
        let stays = asked(&history, 3) == Ok([low, high, check]);
        checks.that("0x47 goes by the latest accepted sample", refused && stays);
    }
    let stories = (0..1000).filter(|&k| ends_with_twins(1, k)).count();
    checks.that("half of the generated cases end with equal cells", stories >= 500);
}

/// Is the page of case k taken, and do two cells of its last sample share the highest or the lowest
/// reading?
fn ends_with_twins(seed: u64, k: u64) -> bool {
    let (page, log) = case(seed, k);
    let mut history = match judge(&page) {
        Err(_) => return false,
        Ok(page) => History::load(page),
    };
    for line in lines(&log) {
        let _ = history.take_line(line);
    }
    history.samples.last().map_or(false, |sample| {
        let count = |reading| sample.cells.iter().filter(|&&cell| cell == reading).count();
        count(sample.highest()) > 1 || count(sample.lowest()) > 1
    })
}

fn check_the_limits(checks: &mut Checks) {
    let mut history = History::load(page_with(2, &[]));
    for (cell, answer) in [(6000, Ok(())), (6001, Err(10))] {
        let what = format!("cell {}", cell);
        checks.that(&what, history.offer(sample_of(0, &[4000, cell])) == answer);
    }
    for (temperature, answer) in [(2000, Ok(())), (4500, Ok(())), (1999, Err(11)), (4501, Err(11))]
    {
        let mut first = sample_of(0, &[4000, 4000]);
        let mut second = first.clone();
        first.temperature_1 = temperature;
        second.temperature_2 = temperature;
        let what = format!("temperature {}", temperature);
        checks.that(&what, history.offer(first) == answer);
        checks.that(&what, history.offer(second) == answer);
    }
}

/// "an upper trip at C needs a sample of 10 × C + 2732 or more, and its release one of 10 × C +
/// 2731 or less; a lower limit is the mirror"
fn check_the_degrees(checks: &mut Checks) {
    for (high, low) in [(25, -40), (120, 25), (-39, -40), (1, 0)] {
        for p in [5, 6, 7, 8, 9] {
            let upper = p < 8;
            let (trip, release) = if upper { (high, low) } else { (low, high) };
            let at = first_word(p);
            let limits = [(at, trip), (at + 1, release), (at + 2, 1), (at + 3, 1)];
            let mut history = History::load(long_page_with(2, &limits));
            // Just short of the trip, the trip, just short of the release, the release.
            let (below, above) = (2731, 2732);
            let (far, near) = if upper { (below, above) } else { (above, below) };
            for (tenths, raised) in [
                (10 * trip + far, false),
                (10 * trip + near, true),
                (10 * release + near, true),
                (10 * release + far, false),
            ] {
                let mut sample = sample_of(0, &[4000, 4000]);
                if p == 7 {
                    sample.temperature_2 = tenths as u16;
                } else {
                    sample.temperature_1 = tenths as u16;
                }
                let what = format!("protection {} at {} tenths", p, tenths);
                let accepted = history.offer(sample).is_ok();
                checks.that(&what, accepted && bit(history.raised_now(), p) == raised);
            }
        }
    }
}

/// Request 07: a sample at so many tenths, and what is shown after it.
fn check_the_cold(checks: &mut Checks) {
    let at = |tenths, current| {
        let mut sample = sample_of(current, &[4000, 4100, 4000]);
        sample.temperature_1 = tenths;
        sample
    };
    let cold = |masks: (i64, i64)| {
        let eight = [(56, 0), (57, 1), (58, 1), (59, 1), (60, masks.0)];
        let nine = [(61, -10), (62, -9), (63, 1), (64, 1), (65, masks.1)];
        let mut history = History::load(long_page_with(3, &[eight, nine].concat()));
        let commanded = history.command(3).is_ok();
        (history, commanded)
    };
    let sent = |history: &History, command| {
        history.reply(command, 3).map(|reply| u16::from_le_bytes([reply[0], reply[1]]))
    };
    // Tenths, then raised, fets, 0x45 and the status: at 0 degrees 2731 trips and 2732 does not.
    let charging = 500;
    for (masks, steps) in [
        (
            (1, 2),
            &[
                (2732, 0, 3, 0x0300, 0x0080),
                (2731, 256, 2, 0x0600, 0x4080),
                (2632, 256, 2, 0x0600, 0x4080),
                (2631, 768, 0, 0x0C00, 0x4880),
                (2641, 768, 0, 0x0C00, 0x4880),
                (2642, 256, 2, 0x0600, 0x4080),
                (2741, 256, 2, 0x0600, 0x4080),
                (2742, 0, 3, 0x0300, 0x0080),
            ][..],
        ),
        ((2, 1), &[(2731, 256, 1, 0x0500, 0x0880), (2000, 768, 0, 0x0C00, 0x4880)][..]),
        ((0, 0), &[(2731, 256, 3, 0x0700, 0x0080), (2000, 768, 3, 0x0F00, 0x0080)][..]),
    ] {
        let (mut history, mut right) = cold(masks);
        for &(tenths, raised, fets, word, status) in steps {
            right = right && history.offer(at(tenths, charging)).is_ok();
            let what = format!("cold: masks {:?}, {} tenths", masks, tenths);
            right = right && history.raised_now() == raised && history.fets() == fets;
            right = right && sent(&history, 0x45) == Ok(word);
            right = right && sent(&history, 0x16) == Ok(status);
            // "They have no mode number": 3 is charging.
            right = right && history.mode() == 3;
            let blocked = status & 0x4000 != 0;
            let asked = if blocked { (0, 0) } else { (2000, 3 * 4200) };
            right = right && sent(&history, 0x14) == Ok(asked.0);
            right = right && sent(&history, 0x15) == Ok(asked.1);
            // "no protection is raised": then cell 2 is bled.
            right = right && history.bled_now() == if raised == 0 { 2 } else { 0 };
            checks.that(&what, right);
        }
    }
    let (mut history, _) = cold((1, 2));
    let discharging = history.offer(at(2000, -500)).is_ok() && history.mode() == 2;
    checks.that("cold and discharging: mode 2", discharging);
    let mut history = History::load(page_with(3, &[]));
    let never = (0..300).all(|_| history.offer(at(2000, 0)).is_ok() && history.raised_now() == 0);
    checks.that("on a 128-byte page 8 and 9 never rise", never);
}

/// Request 07: the new page.
fn check_the_long_pages(checks: &mut Checks) {
    let page = changed(long(), 7, &[]);
    checks.that("an everyday long page is accepted", answer(&page) == 0 && page.len() == 160);
    checks.that("it begins A5 17", page[..2] == [0xA5, 0x17]);
    let check = check_byte(&page[..159]);
    checks.that("its check byte is that of bytes 0..158", page[159] == check && page[158] == 0);
    checks.that("swapped it gives 2", answer(&byte_swapped(&page)) == refused_as(2, 0));
    for length in [0, 127, 129, 144, 159, 161, 256] {
        let mut other = page.clone();
        other.resize(length, 0);
        checks.that("a page of another length gives 1", answer(&other) == refused_as(1, 0));
    }
    for (layout, mark, number) in [
        (short(), 0x17A4, 0),
        (short(), 0x17A5, 3),
        (short(), 0xA417, 2),
        (short(), 0xA517, 2),
        (long(), 0x17A4, 3),
        (long(), 0x17A5, 0),
        (long(), 0xA417, 2),
        (long(), 0xA517, 2),
    ] {
        let what = format!("{} bytes with mark {:04x} give {}", layout.bytes, mark, number);
        checks.that(&what, answer(&changed(layout, 7, &[(0, mark)])) == refused_as(number, 0));
    }
    // A word, its value, the answer: "words 56 to 62 and byte 126 belong to protections there".
    for (word, value, number) in [
        (9, 1, 5),
        (15, 256, 5),
        (66, 1, 5),
        (78, 1, 5),
        (79, 1, 5),
        (1, 11, 6),
        (56, -41, 7),
        (57, 121, 7),
        (58, 0, 7),
        (59, 241, 7),
        (60, 4, 7),
        (61, 121, 7),
        (62, -41, 7),
        (63, 0, 7),
        (63, 240, 0),
        (63, 241, 7),
        (64, 0, 7),
        (65, 3, 0),
        (65, 4, 7),
        (56, 3, 8),
        (56, 2, 0),
        (56, 4, 8),
        (61, -15, 8),
        (61, -16, 0),
    ] {
        let answer = answer(&changed(long(), 7, &[(word, value)]));
        let what = format!("a long page with {} in word {} gives {}", value, word, number);
        checks.that(&what, answer == refused_as(number, if number == 0 { 0 } else { word }));
    }
    let lowest = |changes: &[(usize, i64)]| answer(&changed(long(), 7, changes));
    checks.that("5 before 6", lowest(&[(79, 1), (1, 1)]) == refused_as(5, 79));
    checks.that("66 before 79", lowest(&[(79, 1), (66, 1)]) == refused_as(5, 66));
    checks.that("7 at 65 before 8 at 16", lowest(&[(65, 4), (16, 0)]) == refused_as(7, 65));
    checks.that("8 at 56 before 8 at 61", lowest(&[(56, 9), (61, 9)]) == refused_as(8, 56));
    let list = "1 2\n65 1\n";
    let made = page_from_list(list).unwrap_or_default();
    checks.that("a list with word 65 makes a long page", made.len() == 160 && made[0] == 0xA5);
    let made = page_from_list("63 1\n").unwrap_or_default();
    checks.that("a list up to word 63 makes a short page", made.len() == 128 && made[0] == 0xA4);
    checks.that("there is no word 80", page_from_list("80 0\n").is_err());
}

fn check_the_pages(checks: &mut Checks) {
    let page = changed(short(), 7, &[]);
    checks.that("a page of 127 bytes gives 1", answer(&page[..127]) == refused_as(1, 0));
    checks.that("an everyday page is accepted", answer(&page) == 0);
    let begins_17_a4 = [&[0x17, 0xA4][..], &page[2..]].concat();
    checks.that("128 bytes that begin 17 A4 give 2", answer(&begins_17_a4) == refused_as(2, 0));
    checks.that("the page swapped gives 2", answer(&byte_swapped(&page)) == refused_as(2, 0));
    checks.that("4250 read backwards is 39440", 4250u16.swap_bytes() == 39440);
    let made = made_pages(1, 12000);
    if let Err(message) = &made {
        eprintln!("selftest: {}", message);
    }
    checks.that("each made page has the answer it was made for", made.is_ok());
    if let Ok(made) = made {
        let long = made.iter().filter(|made| made.1.len() == 160).count();
        checks.that("half of the made pages are long", (5000..=7000).contains(&long));
    }
    // 1 to 4; 5 at 15 words, 6 at 8, 7 at 34, 8 at 8; and accepted. A long page has 5 at 6 words
    // more, 7 at 10 and 8 at 2.
    for (layout, count) in [(short(), 4 + 15 + 8 + 34 + 8 + 1), (long(), 4 + 21 + 8 + 44 + 10 + 1)]
    {
        let made = each_answer(layout, &mut Dice(1));
        let answers: BTreeSet<u32> = made.iter().map(|made| made.0).collect();
        checks.that(&format!("there are {} answers", count), answers.len() == count);
    }
}

const WORKED_LOG: &str = "F 3
S 500 2980 2980 4000 4020
S 500 2980 2980 4260 4100
S 500 2980 2980 4260 4100
S 500 2980 2980 4100
";

const WORKED_OUTPUT: &str = "tick raised fets balance mode
0 0 0 0 0
1 0 3 2 3
2 0 3 1 3
3 1 2 0 21
refused 9
";

fn check_the_replay(checks: &mut Checks) {
    let settings = [(2, 1), (3, 4), (4, 3900), (5, 10), (6, 100)];
    let protection = [(16, 4250), (17, 4150), (18, 2), (19, 2), (20, 1)];
    let page = page_of(&page_with(2, &[&settings[..], &protection[..]].concat()).words);
    let replayed = |page: &[u8], log: &[u8]| {
        let mut out = vec![];
        replay(page, log, &mut out).map(|()| out).unwrap_or_default()
    };
    let log = WORKED_LOG.replace(' ', "\t");
    let output = WORKED_OUTPUT.replace(' ', "\t");
    checks.that("the replay example", replayed(&page, log.as_bytes()) == output.as_bytes());
    let unended = log.trim_end().as_bytes();
    checks.that("the last line need not end", replayed(&page, unended) == output.as_bytes());
    let header = b"tick\traised\tfets\tbalance\tmode\n".to_vec();
    checks.that("an empty log gives the header alone", replayed(&page, b"") == header);
    let one_empty_line = [&header[..], b"refused\t17\n"].concat();
    checks.that("one newline is one empty line", replayed(&page, b"\n") == one_empty_line);
    checks.that("a refused page", replayed(b"", b"") == b"page\t1\t0\n");
}

fn check_the_lines(checks: &mut Checks) {
    let read = |line: &str| {
        let mut history = History::load(page_with(2, &[]));
        history.take_line(line.as_bytes()).err().unwrap_or(0)
    };
    for (line, number) in [
        ("S\t-32768\t2980\t2980\t4000\t4000", 0),
        ("S\t32767\t2980\t2980\t0\t6000", 0),
        ("S\t0\t2980\t2980", 9),
        ("S\t0\t0\t0", 9),
        ("S\t0\t2980", 17),
        ("S\t0\t2980\t2980\t", 17),
        ("S\t-0\t2980\t2980\t4000\t4000", 17),
        ("S\t00\t2980\t2980\t4000\t4000", 17),
        ("S\t0\t-1\t2980\t4000\t4000", 17),
        ("S\t32768\t2980\t2980\t4000\t4000", 17),
        ("S\t-32769\t2980\t2980\t4000\t4000", 17),
        ("S\t0\t65536\t2980\t4000\t4000", 17),
        ("S\t0\t65535\t2980\t4000\t4000", 11),
        ("S\t0\t2980\t2980\t4000\t4000\r", 17),
        ("S\t0\t2980\t2980\t1\t1\t1\t1\t1\t1\t1\t1\t1\t1", 9),
        ("S\t0\t2980\t2980\t1\t1\t1\t1\t1\t1\t1\t1\t1\t1\t1", 17),
        ("F\t0", 0),
        ("F\t3", 0),
        ("F\t4", 16),
        ("F\t256", 16),
        ("F\t65535", 16),
        ("F\t65536", 17),
        ("F\t-1", 17),
        ("F\t03", 17),
        ("F\t4294967296", 17),
        ("F", 17),
        ("f\t3", 17),
        ("", 17),
    ] {
        checks.that(&format!("line {:?} gives {}", line, number), read(line) == number);
    }
}

/// After 1,000,000 samples the tick reads 0 and nothing else starts again.
fn check_the_tick(checks: &mut Checks) {
    let mut history = History::load(page_with(3, &[(2, 1), (3, 240), (5, 1)]));
    let mut accepted = history.command(3).is_ok();
    for _ in 0..1_000_000 {
        accepted = accepted && history.offer(sample_of(500, &[4000, 4000, 4000])).is_ok();
    }
    checks.that("a million samples are accepted", accepted);
    checks.that("the tick reads 0", history.tick() == 0);
    checks.that("the switches stay on", history.fets() == 3 && history.mode() == 3);
    let next = history.offer(sample_of(500, &[4010, 4010, 4000])).is_ok();
    checks.that("the tick reads 1", next && history.tick() == 1);
    checks.that("the start cell is 2, not 1", history.bled_now() == 2);
}

pub(crate) fn selftest() -> bool {
    let mut checks = Checks { passed: 0, failed: 0 };
    check_the_check_byte(&mut checks);
    check_the_debounce(&mut checks);
    check_the_bleeding(&mut checks);
    check_the_words(&mut checks);
    check_the_numbers(&mut checks);
    check_the_limits(&mut checks);
    check_the_degrees(&mut checks);
    check_the_cold(&mut checks);
    check_the_pages(&mut checks);
    check_the_long_pages(&mut checks);
    check_the_sheets(&mut checks);
    check_the_replay(&mut checks);
    check_the_lines(&mut checks);
    check_the_tick(&mut checks);
    check_the_rounds(&mut checks);
    println!("selftest: {} passed, {} failed", checks.passed, checks.failed);
    checks.failed == 0
}
