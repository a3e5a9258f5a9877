//! Pages to compare with, each made for an answer; and a page from a list of words.

use super::dice::Dice;
use super::*;

pub type Words = Vec<u16>;

/// Document 01's page.
pub(crate) fn short() -> &'static Layout {
    &LAYOUTS[0]
}

/// The new page of document 02, request 07.
pub(crate) fn long() -> &'static Layout {
    &LAYOUTS[1]
}

/// One as often as the other.
pub(crate) fn some_layout(dice: &mut Dice) -> &'static Layout {
    dice.pick(&[short(), long()])
}

/// The layout that has so many words.
pub(crate) fn layout_of(words: &[u16]) -> &'static Layout {
    if words.len() > 64 {
        long()
    } else {
        short()
    }
}

/// The bytes of the words, with the right check byte: only one byte of the last word is its own.
pub(crate) fn page_of(words: &[u16]) -> Vec<u8> {
    sealed(words.iter().flat_map(|word| word.to_le_bytes()).collect())
}

/// The bytes with the last one made the check byte of the others.
fn sealed(mut page: Vec<u8>) -> Vec<u8> {
    let last = page.len() - 1;
    page[last] = check_byte(&page[..last]);
    page
}

/// A signed level as a word.
pub(crate) fn level_word(level: i64) -> u16 {
    level as i16 as u16
}

/// An everyday page of a speaker with n cells; the pages of `big` and of the worked samples.
pub(crate) fn everyday_words(layout: &Layout, n: u16) -> Words {
    let mut words = vec![0; layout.last + 1];
    words[..9].copy_from_slice(&[layout.mark, n, 2, 20, 3600, 12, 100, 4200, 2000]);
    let protections: [[i64; 5]; 10] = [
        [4250, 4150, 4, 8, 1],
        [2900, 3100, 8, 8, 2],
        [3000, 2000, 4, 8, 1],
        [-8000, -5000, 8, 16, 2],
        [-20000, -5000, 1, 40, 3],
        [45, 40, 12, 12, 1],
        [60, 55, 12, 12, 2],
        [65, 55, 12, 12, 3],
        [0, 3, 12, 12, 1],
        [-20, -15, 12, 12, 2],
    ];
    for (p, protection) in protections.iter().enumerate().take(layout.protections) {
        for (word, value) in protection.iter().enumerate() {
            words[first_word(p) + word] = level_word(*value);
        }
    }
    words
}

/// Give protection p these levels, the one that trips first put where it belongs.
pub(crate) fn set_levels(words: &mut [u16], p: usize, one: i64, other: i64) {
    let (low, high) = (one.min(other), one.max(other));
    let (trip, release) = match PROTECTIONS[p].1 {
        AtOrAbove => (high, low),
        AtOrBelow => (low, high),
    };
    words[first_word(p)] = level_word(trip);
    words[first_word(p) + 1] = level_word(release);
}

fn level_ends(p: usize) -> (i64, i64) {
    let (least, most) = level_range(PROTECTIONS[p].0);
    (i64::from(least), i64::from(most))
}

/// Any accepted page, the ends of the ranges often.
pub(crate) fn accepted_words(layout: &Layout, dice: &mut Dice) -> Words {
    let mut words = vec![0; layout.last + 1];
    words[0] = layout.mark;
    for (word, least, most) in RANGES {
        words[word] = dice.end_or_between(i64::from(least), i64::from(most)) as u16;
    }
    for p in 0..layout.protections {
        let (least, most) = level_ends(p);
        let low = dice.end_or_between(least, most - 1);
        let high = dice.end_or_between(low + 1, most);
        set_levels(&mut words, p, low, high);
        words[first_word(p) + 2] = dice.end_or_between(1, 240) as u16;
        words[first_word(p) + 3] = dice.end_or_between(1, 240) as u16;
        words[first_word(p) + 4] = dice.below(4) as u16;
    }
    words
}

/// The judge's answer as one number: 0, or refusal number × 256 + word.
pub(crate) fn answer(page: &[u8]) -> u32 {
    match judge(page) {
        Ok(_) => 0,
        Err(refusal) => refused_as(u32::from(refusal.number), refusal.word),
    }
}

pub(crate) fn refused_as(number: u32, word: usize) -> u32 {
    number * 256 + word as u32
}

/// A page, and the answer it was made for.
pub type Made = (u32, Vec<u8>);

/// Values that word 1..8 or a protection's word must not have; none for a level of a current.
fn values_out_of_range(word: usize) -> Vec<u16> {
    let around = |least: u16, most: u16| {
        let mut values = vec![most + 1, most.swap_bytes().max(most + 1), 0x8000, 0xFFFF];
        if least > 0 {
            values.push(least - 1);
        }
        values
    };
    if word <= 8 {
        let (_, least, most) = RANGES[word - 1];
        return around(least, most);
    }
    match ((word - 16) % 5, PROTECTIONS[(word - 16) / 5].0) {
        (0, Current) | (1, Current) => vec![],
        (0, HighestCell) | (0, LowestCell) | (1, HighestCell) | (1, LowestCell) => {
            let mut values = around(0, 6000);
            values.push(0x9A10); // 4250 read backwards
            values
        }
        (0, _) | (1, _) => [-41, 121, -32768, 32767, 2980, 0x1900, -216]
            .iter()
            .map(|level| level_word(*level))
            .collect(),
        (4, _) => around(0, 3),
        _ => around(1, 240),
    }
}

/// One thing wrong with a page.
#[derive(Clone, Copy)]
enum Fault {
    Reserved(usize),
    OutOfRange(usize),
    Order(usize),
}

impl Fault {
    fn all(layout: &Layout) -> Vec<Fault> {
        let zero = (0..=layout.last).filter(|w| layout.is_reserved(*w) || *w == layout.last);
        let ranged = (1..9).chain(layout.protection_words());
        let ranged = ranged.filter(|w| !values_out_of_range(*w).is_empty());
        let mut faults: Vec<Fault> = zero.map(Fault::Reserved).collect();
        faults.extend(ranged.map(Fault::OutOfRange));
        faults.extend((0..layout.protections).map(Fault::Order));
        faults
    }

    /// Document 01's answer if this alone is wrong.
    fn answer(self) -> u32 {
        match self {
            Fault::Reserved(word) => refused_as(5, word),
            Fault::OutOfRange(word) if word <= 8 => refused_as(6, word),
            Fault::OutOfRange(word) => refused_as(7, word),
            Fault::Order(p) => refused_as(8, first_word(p)),
        }
    }

    fn put(self, words: &mut [u16], dice: &mut Dice) {
        match self {
            Fault::Reserved(last) if last + 1 == words.len() => {
                words[last] = dice.between(1, 255) as u16
            }
            Fault::Reserved(word) => words[word] = dice.pick(&[1, 2, 255, 256, 0x8000, 0xFFFF]),
            Fault::OutOfRange(word) => words[word] = dice.pick(&values_out_of_range(word)),
            Fault::Order(p) => {
                let (trip, release) = (first_word(p), first_word(p) + 1);
                match dice.below(3) {
                    0 => words[trip] = words[release],
                    1 => words[release] = words[trip],
                    _ => words.swap(trip, release),
                }
            }
        }
    }
}

/// An accepted page with these things wrong with it. The lowest number, and the lowest word
/// within it, is what the judge must give. Orders are spoilt first: they move good levels only.
/// Each is put once: levels that change places twice are in order again.
fn faulty_page(layout: &Layout, faults: &[Fault], dice: &mut Dice) -> Made {
    let mut words = accepted_words(layout, dice);
    let mut faults = faults.to_vec();
    faults.sort_by_key(|fault| std::cmp::Reverse(fault.answer()));
    faults.dedup_by_key(|fault| fault.answer());
    for fault in &faults {
        fault.put(&mut words, dice);
    }
    let lowest = faults.iter().map(|fault| fault.answer()).min().unwrap_or(0);
    (lowest, page_of(&words))
}

pub(crate) fn byte_swapped(page: &[u8]) -> Vec<u8> {
    page.chunks(2).flat_map(|pair| pair.iter().rev().copied()).collect()
}

fn with_mark(mark: u16, mut words: Words) -> Vec<u8> {
    words[0] = mark;
    page_of(&words)
}

/// Every answer that there is for a page of this layout.
pub(crate) fn each_answer(layout: &Layout, dice: &mut Dice) -> Vec<Made> {
    let everyday = || everyday_words(layout, 7);
    let mut made = vec![(0, page_of(&everyday())), (refused_as(1, 0), vec![])];
    for mark in [0xA417, 0xA517] {
        made.push((refused_as(2, 0), with_mark(mark, everyday())));
    }
    let other = if layout.bytes == 128 { 0x17A5 } else { 0x17A4 };
    made.push((refused_as(3, 0), with_mark(other, everyday())));
    let mut wrong_check = page_of(&everyday());
    wrong_check[layout.bytes - 1] ^= 1;
    made.push((refused_as(4, 0), wrong_check));
    for fault in Fault::all(layout) {
        made.push(faulty_page(layout, &[fault], dice));
    }
    made
}

/// Accepted pages: all n, K and both R; both ends of every range; levels as near and as far as
/// they may be.
fn accepted_ends(layout: &Layout, dice: &mut Dice) -> Vec<Made> {
    let mut made = vec![];
    let mut accept = |words: &[u16]| made.push((0, page_of(words)));
    for n in 2..=10 {
        for most_bled in 1..=5 {
            for run_limit in [1, 240] {
                let mut words = accepted_words(layout, dice);
                words[1..4].copy_from_slice(&[n, most_bled, run_limit]);
                accept(&words);
            }
        }
    }
    for (word, least, most) in RANGES {
        for value in [least, most] {
            let mut words = accepted_words(layout, dice);
            words[word] = value;
            accept(&words);
        }
    }
    for p in 0..layout.protections {
        for (place, value) in [(2, 1), (2, 240), (3, 1), (3, 240), (4, 0), (4, 1), (4, 2), (4, 3)] {
            let mut words = accepted_words(layout, dice);
            words[first_word(p) + place] = value;
            accept(&words);
        }
        let (least, most) = level_ends(p);
        let near_zero = if least < 0 { -1 } else { 0 };
        for (low, high) in
            [(least, most), (least, least + 1), (most - 1, most), (near_zero, near_zero + 1)]
        {
            let mut words = accepted_words(layout, dice);
            set_levels(&mut words, p, low, high);
            accept(&words);
        }
    }
    made
}

/// Words out of range by every value above, and levels in the wrong order by every pair.
fn refused_ends(layout: &Layout, dice: &mut Dice) -> Vec<Made> {
    let mut made = vec![];
    for word in (1..9).chain(layout.protection_words()) {
        for value in values_out_of_range(word) {
            let mut words = accepted_words(layout, dice);
            words[word] = value;
            made.push((Fault::OutOfRange(word).answer(), page_of(&words)));
        }
    }
    for word in (0..layout.last).filter(|word| layout.is_reserved(*word)) {
        for place in 0..16 {
            let mut words = accepted_words(layout, dice);
            words[word] = 1 << place;
            made.push((refused_as(5, word), page_of(&words)));
        }
    }
    for zero_byte in 1..=255 {
        let mut words = accepted_words(layout, dice);
        words[layout.last] = zero_byte;
        made.push((refused_as(5, layout.last), page_of(&words)));
    }
    for p in 0..layout.protections {
        let (least, most) = level_ends(p);
        let middle = (least + most + 1) / 2;
        for (low, high) in [
            (least, most),
            (least, least),
            (most, most),
            (middle, middle),
            (middle - 1, middle),
            (least, least + 1),
            (most - 1, most),
        ] {
            let mut words = accepted_words(layout, dice);
            set_levels(&mut words, p, low, high);
            words.swap(first_word(p), first_word(p) + 1);
            made.push((Fault::Order(p).answer(), page_of(&words)));
        }
    }
    made
}

/// Lengths that no page has; and every length about the two that there are, with each mark and each
/// mark swapped.
fn lengths(dice: &mut Dice) -> Vec<Made> {
    let mut made = vec![];
    for length in (0..=300).filter(|length| *length != 128 && *length != 160) {
        made.push((refused_as(1, 0), dice.bytes(length)));
        let mut page = page_of(&accepted_words(some_layout(dice), dice));
        let rest = dice.bytes(300);
        page.extend(rest);
        page.truncate(length);
        made.push((refused_as(1, 0), page));
    }
    for length in 126..=162 {
        let numbers = match length {
            128 => [0, 3, 2, 2],
            160 => [3, 0, 2, 2],
            _ => [1; 4],
        };
        for (mark, number) in [0x17A4, 0x17A5, 0xA417, 0xA517].into_iter().zip(numbers) {
            let layout = match length {
                128 => short(),
                160 => long(),
                _ => some_layout(dice),
            };
            let mut page = with_mark(mark, accepted_words(layout, dice));
            page.resize(length, 0);
            made.push((refused_as(number, 0), sealed(page)));
        }
    }
    made
}

/// A page of one layout made one of the other, in mark, length and check byte: the words of 8 and 9
/// are reserved on a short page, and the zeros of a short page are no limits of 8.
fn other_layout(dice: &mut Dice) -> Vec<Made> {
    let mut words = accepted_words(long(), dice);
    words.truncate(64);
    let first = (56..63).find(|word| words[*word] != 0).unwrap_or(63);
    let cut = (refused_as(5, first), with_mark(0x17A4, words));
    let mut words = accepted_words(short(), dice);
    words.resize(80, 0);
    vec![cut, (refused_as(7, 58), with_mark(0x17A5, words))]
}

/// Marks, check bytes and single bits.
fn damaged(layout: &Layout, dice: &mut Dice) -> Vec<Made> {
    let mut made = vec![];
    let marks = [0x17A3, 0x17A4, 0x17A5, 0x17A6, 0x1717, 0xA4A4, 0xA416, 0xA418, 0xA516, 0xA518];
    let others = [0, 1, 0x4A71, 0x5A71, 0xE85B, 0xE85A, 0xFFFF];
    for mark in marks.into_iter().chain(others).filter(|mark| *mark != layout.mark) {
        made.push((refused_as(3, 0), with_mark(mark, accepted_words(layout, dice))));
    }
    let page = page_of(&accepted_words(layout, dice));
    for change in 1..=255 {
        let mut wrong = page.clone();
        wrong[layout.bytes - 1] ^= change;
        made.push((refused_as(4, 0), wrong));
    }
    let page = page_of(&accepted_words(layout, dice));
    for place in 0..8 * layout.bytes {
        let mut wrong = page.clone();
        wrong[place / 8] ^= 1 << (place % 8);
        made.push((refused_as(if place < 16 { 3 } else { 4 }, 0), wrong));
    }
    made
}

/// Pairs of faults: every two numbers, at several words.
fn two_faults(layout: &Layout, dice: &mut Dice) -> Vec<Made> {
    let faults = Fault::all(layout);
    let mut made = vec![];
    for first in &faults {
        for _ in 0..4 {
            let second = dice.pick(&faults);
            made.push(faulty_page(layout, &[*first, second], dice));
        }
    }
    made
}

/// The systematic pages, in this order; `each_answer` comes first so that a short list has it.
fn table_pages(dice: &mut Dice) -> Vec<Made> {
    let mut made = vec![];
    for make in [each_answer, accepted_ends, refused_ends, two_faults, damaged] {
        for layout in &LAYOUTS {
            made.extend(make(layout, dice));
        }
    }
    made.extend(lengths(dice));
    made.extend(other_layout(dice));
    made
}

/// Any page; the answer it was made for is `None` where only the judge can tell.
pub(crate) fn random_page(dice: &mut Dice) -> (Option<u32>, Vec<u8>) {
    let layout = some_layout(dice);
    let mut words = accepted_words(layout, dice);
    match dice.below(13) {
        0 | 1 => (Some(0), page_of(&words)),
        2 => (Some(refused_as(2, 0)), byte_swapped(&page_of(&words))),
        3 | 4 | 5 => {
            let faults = Fault::all(layout);
            let count = dice.between(1, 6);
            let chosen: Vec<Fault> = (0..count).map(|_| dice.pick(&faults)).collect();
            let (answer, page) = faulty_page(layout, &chosen, dice);
            (Some(answer), page)
        }
        6 => {
            // Several faults, and the check byte is wrong besides.
            let faults = Fault::all(layout);
            let (_, mut page) =
                faulty_page(layout, &[dice.pick(&faults), dice.pick(&faults)], dice);
            page[layout.bytes - 1] ^= dice.between(1, 255) as u8;
            (Some(refused_as(4, 0)), page)
        }
        7 => {
            let length = dice.below(301) as usize;
            (None, dice.bytes(length))
        }
        8 => {
            // One bit of the page turned.
            let mut page = page_of(&words);
            page[dice.below(layout.bytes as u64) as usize] ^= 1 << dice.below(8);
            (None, page)
        }
        9 => {
            // Any words at all under the right mark and the right check byte.
            words[1..].iter_mut().for_each(|word| *word = dice.next() as u16);
            (None, page_of(&words))
        }
        10 => {
            // Another mark, the check byte right.
            let any = dice.next() as u16;
            let mark = dice.pick(&[0x17A4, 0x17A5, 0xA417, 0xA517, 0x16A4, 0xA416, 0x1717, 0, any]);
            (None, with_mark(mark, words))
        }
        11 => {
            // An accepted page with a few words swapped in their bytes, sealed again.
            for _ in 0..dice.between(1, 3) {
                let word = dice.between(1, layout.last as i64 - 1) as usize;
                words[word] = words[word].swap_bytes();
            }
            (None, page_of(&words))
        }
        _ => {
            // An accepted page with a few words changed by one, sealed again.
            for _ in 0..dice.between(1, 3) {
                let word = dice.between(1, layout.last as i64 - 1) as usize;
                words[word] = words[word].wrapping_add(dice.pick(&[1, 0xFFFF]));
            }
            (None, page_of(&words))
        }
    }
}

/// COUNT pages with the judge's answers; an error if one was made for another answer.
pub(crate) fn made_pages(seed: u64, count: usize) -> Result<Vec<Made>, String> {
    let mut dice = Dice(seed);
    let mut pages: Vec<(Option<u32>, Vec<u8>)> =
        table_pages(&mut dice).into_iter().map(|(answer, page)| (Some(answer), page)).collect();
    pages.truncate(count);
    while pages.len() < count {
        pages.push(random_page(&mut dice));
    }
    pages
        .into_iter()
        .map(|(made_for, page)| match (made_for, answer(&page)) {
            (Some(made_for), judged) if made_for != judged => {
                Err(format!("a page made for {} is judged {}: {}", made_for, judged, hex(&page)))
            }
            (_, judged) => Ok((judged, page)),
        })
        .collect()
}

pub(crate) fn write_pages(seed: u64, count: usize, out: &mut dyn Write) -> Result<(), String> {
    for (answer, page) in made_pages(seed, count)? {
        let bytes = if page.is_empty() { "-".to_string() } else { hex(&page) };
        writeln!(out, "{} {}", answer, bytes).map_err(stdout_error)?;
    }
    Ok(())
}

// ---- A page from a list of words ----------------------------------------------------------

/// Lines of `word value`; `#` begins a remark. The page is the long one if a word above 63 is
/// named. Its mark stands if word 0 is not named; its last byte is always the check byte.
pub(crate) fn page_from_list(list: &str) -> Result<Vec<u8>, String> {
    let mut named: Vec<(usize, u16)> = vec![];
    for (place, line) in list.lines().enumerate() {
        let wrong = || format!("line {}: not `word value`: {}", place + 1, line);
        let told = line.split('#').next().unwrap_or("");
        let parts: Vec<&str> = told.split_whitespace().collect();
        if parts.is_empty() {
            continue;
        }
        if parts.len() != 2 {
            return Err(wrong());
        }
        let word: usize = parts[0].parse().map_err(|_| wrong())?;
        let value: i64 = parts[1].parse().map_err(|_| wrong())?;
        if word > long().last || value < -32768 || value > 65535 {
            return Err(wrong());
        }
        named.push((word, value as u16));
    }
    let layout = if named.iter().any(|named| named.0 > short().last) { long() } else { short() };
    let mut words = vec![0; layout.last + 1];
    words[0] = layout.mark;
    for (word, value) in named {
        words[word] = value;
    }
    Ok(page_of(&words))
}
