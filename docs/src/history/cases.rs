//! Cases to compare with: a page and a log.

use super::dice::Dice;
use super::pages::*;
use super::*;

/// An accepted page on which much happens: small N, M, R and K, levels near one another.
/// `lively` of 0..4 says how many protections are within reach of the samples. Half are long.
fn lively_words(dice: &mut Dice, lively: u64) -> Words {
    let layout = some_layout(dice);
    let mut words = everyday_words(layout, dice.between(2, 10) as u16);
    words[2] = dice.between(1, 5) as u16;
    words[3] = dice.pick(&[1, 1, 1, 2, 2, 3, 4, 5]);
    words[4] = dice.pick(&[0, 3900, 3950, 4000]);
    words[5] = dice.pick(&[1, 2, 10, 10, 30]);
    words[6] = dice.pick(&[1, 2, 100, 100, 500, 32767]);
    words[7] = dice.end_or_between(0, 6000) as u16;
    words[8] = dice.end_or_between(0, 32767) as u16;
    let near: [(i64, i64); 10] = [
        (4020, 4100),
        (3800, 3950),
        (600, 900),
        (-900, -300),
        (-2000, -950),
        (25, 35),
        (28, 40),
        (22, 40),
        (5, 19),
        (-4, 17),
    ];
    let far: [(i64, i64); 10] = [
        (5998, 5999),
        (1, 2),
        (32000, 32760),
        (-32760, -32000),
        (-32765, -32762),
        (115, 119),
        (117, 120),
        (118, 120),
        (-39, -36),
        (-40, -37),
    ];
    for p in 0..layout.protections {
        let (least, most) = if dice.below(4) < lively { near[p] } else { far[p] };
        let low = dice.between(least, most - 1);
        let high = if dice.one_in(3) { low + 1 } else { dice.between(low + 1, most) };
        set_levels(&mut words, p, low, high);
        words[first_word(p) + 2] = dice.pick(&[1, 1, 2, 2, 3, 4]);
        words[first_word(p) + 3] = dice.pick(&[1, 2, 2, 3, 3, 5]);
        words[first_word(p) + 4] = dice.below(4) as u16;
    }
    words
}

/// A page whose runs are long: N, M and R at the far end of their range.
fn patient_words(dice: &mut Dice) -> Words {
    let lively = dice.below(3);
    let mut words = lively_words(dice, lively);
    words[3] = dice.pick(&[1, 100, 239, 240]);
    for p in 0..layout_of(&words).protections {
        words[first_word(p) + 2] = dice.pick(&[1, 2, 239, 240]);
        words[first_word(p) + 3] = dice.pick(&[1, 2, 239, 240]);
    }
    words
}

/// What the log of a case tells: samples that stay a while and then change.
struct Story {
    page: Page,
    sample: Sample,
    /// How many more samples stay as this one.
    hold: i64,
    /// Do two cells share the highest reading, and two the lowest? So it is in half of the stories.
    twins: bool,
}

impl Story {
    fn new(words: &[u16], twins: bool) -> Story {
        let cells = vec![4000; usize::from(words[1])];
        let sample = Sample { current: 500, temperature_1: 2980, temperature_2: 2980, cells };
        let page = Page { layout: layout_of(words), words: words.to_vec() };
        Story { page, sample, hold: 0, twins }
    }

    /// A level of one of these protections, or one beside it; of degrees the tenths just below the
    /// level and just above it are among them.
    fn near_level(&self, dice: &mut Dice, protections: &[usize]) -> i64 {
        let p = dice.pick(protections);
        let twice =
            if dice.one_in(2) { self.page.twice_trip(p) } else { self.page.twice_release(p) };
        i64::from(twice.div_euclid(2)) + dice.between(-1, 1)
    }

    fn some_current(&self, dice: &mut Dice) -> i16 {
        let value = match dice.below(12) {
            0..=4 => self.near_level(dice, &[2, 3, 4]),
            5..=7 => i64::from(self.page.detection()) + dice.between(-1, 1),
            8 | 9 => i64::from(self.page.detection()) + 400,
            10 => dice.between(-1, 1),
            _ => dice.pick(&[-32768, -32767, 32766, 32767]),
        };
        value.max(-32768).min(32767) as i16
    }

    /// Near a level of one of the protections on it, hot or cold, or everyday, or at an end.
    fn some_temperature(&self, dice: &mut Dice, quantity: Quantity) -> u16 {
        let on_it = self.page.protections().filter(|p| PROTECTIONS[*p].0 == quantity);
        let value = match dice.below(8) {
            0..=4 => self.near_level(dice, &on_it.collect::<Vec<_>>()),
            5 | 6 => dice.pick(&[2980, 2981, 2982]),
            _ => dice.pick(&[2000, 2001, 4499, 4500]),
        };
        value.max(2000).min(4500) as u16
    }

    fn some_cell(&self, dice: &mut Dice) -> u16 {
        let floor = i64::from(self.page.floor());
        let difference = i64::from(self.page.difference());
        let lowest = i64::from(self.sample.lowest());
        let value = match dice.below(16) {
            0..=2 => self.near_level(dice, &[0, 1]),
            3 | 4 => floor + dice.between(-1, 1),
            5..=8 => lowest + difference + dice.between(0, 2),
            9 | 10 => lowest,
            11..=14 => dice.between(3960, 4060),
            _ => dice.pick(&[0, 1, 5999, 6000]),
        };
        value.max(0).min(6000) as u16
    }

    fn change_cells(&mut self, dice: &mut Dice) {
        if dice.one_in(4) {
            // All cells anew: two values, so that many want bleeding.
            let low = dice.between(3960, 4000) as u16;
            let high = low + self.page.difference() + dice.below(3) as u16;
            for cell in self.sample.cells.iter_mut() {
                *cell = dice.pick(&[low, high, high]).min(6000);
            }
        }
        for _ in 0..dice.below(3) {
            let place = dice.below(self.sample.cells.len() as u64) as usize;
            self.sample.cells[place] = self.some_cell(dice);
        }
    }

    /// One cell more reads as the highest, and another as the lowest, before or after the one that
    /// did. Where only one cell is left beside those two it is one of both, and two cells become
    /// equal.
    fn make_twins(&mut self, dice: &mut Dice) {
        let extremes = [self.sample.highest(), self.sample.lowest()];
        let kept = extremes.map(|extreme| usize::from(self.sample.number_of(extreme)) - 1);
        let cells = &mut self.sample.cells;
        let mut left: Vec<usize> = (0..cells.len()).filter(|place| !kept.contains(place)).collect();
        if left.is_empty() {
            cells[1] = cells[0];
        }
        let first = dice.below(2) as usize;
        for extreme in [extremes[first], extremes[1 - first]] {
            if !left.is_empty() {
                let place = left.remove(dice.below(left.len() as u64) as usize);
                cells[place] = extreme;
            }
        }
    }

    /// How long the next sample stays: about one of the page's own run lengths, or short.
    fn some_hold(&self, dice: &mut Dice) -> i64 {
        let p = dice.below(self.page.layout.protections as u64) as usize;
        let run = match dice.below(6) {
            0 => self.page.trip_samples(p),
            1 => self.page.release_samples(p),
            2 => self.page.run_limit(),
            _ => return dice.between(0, 2),
        };
        (run as i64 + dice.between(-2, 1)).max(0)
    }

    fn next_sample(&mut self, dice: &mut Dice) -> Sample {
        if self.hold > 0 {
            self.hold -= 1;
            return self.sample.clone();
        }
        for _ in 0..dice.between(1, 2) {
            match dice.below(8) {
                0 | 1 => self.sample.current = self.some_current(dice),
                2 => self.sample.temperature_1 = self.some_temperature(dice, Temperature1),
                3 => self.sample.temperature_2 = self.some_temperature(dice, Temperature2),
                4 => self.calm(dice),
                _ => self.change_cells(dice),
            }
        }
        if self.twins {
            self.make_twins(dice);
        }
        self.hold = self.some_hold(dice);
        self.sample.clone()
    }

    /// Back to where nothing trips on most pages, and bleeding may go on.
    fn calm(&mut self, dice: &mut Dice) {
        self.sample.current =
            (self.page.detection() + dice.between(0, 99) as i32).min(32767) as i16;
        self.sample.temperature_1 = 2930;
        self.sample.temperature_2 = 2930;
        for cell in self.sample.cells.iter_mut() {
            *cell = dice.between(3960, 4015) as u16;
        }
    }

    /// A sample that reads well and is refused with 9, 10 or 11 (several may apply).
    fn refused_sample(&mut self, dice: &mut Dice) -> Sample {
        let mut sample = self.sample.clone();
        for _ in 0..dice.between(1, 2) {
            match dice.below(6) {
                0 => {
                    sample.cells.pop();
                }
                1 if sample.cells.len() < 10 => sample.cells.push(4000),
                2 => sample.cells = vec![4000; dice.below(11) as usize],
                3 => sample.temperature_1 = dice.pick(&[0, 1999, 4501, 65535]),
                4 => sample.temperature_2 = dice.pick(&[0, 1999, 4501, 65535]),
                _ => {
                    let count = sample.cells.len();
                    if count > 0 {
                        let place = dice.below(count as u64) as usize;
                        sample.cells[place] = dice.pick(&[6001, 6002, 32768, 65535]);
                    }
                }
            }
        }
        sample
    }

    /// Any line of a case.
    fn some_line(&mut self, dice: &mut Dice) -> Vec<u8> {
        match dice.below(40) {
            0..=1 => command_line(dice.below(4)),
            2 => command_line(dice.pick(&[3, 3, 4, 5, 7, 255, 256, 257, 259, 65535])),
            3..=4 => sample_line(&self.refused_sample(dice)),
            5..=8 => {
                let good = fields_of(&self.sample);
                malformed_line(dice, good)
            }
            _ => sample_line(&self.next_sample(dice)),
        }
    }
}

fn command_line(command: u64) -> Vec<u8> {
    format!("F\t{}", command).into_bytes()
}

fn fields_of(sample: &Sample) -> Vec<String> {
    let mut fields = vec![
        "S".to_string(),
        sample.current.to_string(),
        sample.temperature_1.to_string(),
        sample.temperature_2.to_string(),
    ];
    fields.extend(sample.cells.iter().map(|cell| cell.to_string()));
    fields
}

pub(crate) fn sample_line(sample: &Sample) -> Vec<u8> {
    fields_of(sample).join("\t").into_bytes()
}

/// Command lines that are malformed.
#[rustfmt::skip]
const COMMAND_LINES: [&str; 22] = [
    "F", "F\t", "F\t\t", "F\t1\t", "F\t1\t2", "F\t01", "F\t-1", "F\t-0", "F\t+1", "F\t65536",
    "F\t4294967296", "F\t4294967299", "F\t18446744073709551616", "F\t 1", "F\t1 ", "F 1", "f\t1",
    "F\t3\0", "\tF\t1", "FF\t1", "F\tx", "F\t00",
];

/// A line that is malformed, or nearly so, made from the fields of a good one.
fn malformed_line(dice: &mut Dice, mut fields: Vec<String>) -> Vec<u8> {
    let any = dice.between(1, fields.len() as i64 - 1) as usize;
    let not_current = dice.between(2, fields.len() as i64 - 1) as usize;
    match dice.below(30) {
        0 => fields[any].insert(0, '0'),
        1 => fields[any] = "00".to_string(),
        2 => fields[1] = dice.pick(&["-0", "-00", "-", "--1", "-01", "-+1"]).to_string(),
        3 => fields[not_current].insert(0, '-'),
        4 => fields[any].insert(0, '+'),
        5 => fields[any].insert(0, ' '),
        6 => fields[any].push(' '),
        7 => return fields.join(dice.pick(&[" ", "  ", "\t\t", ",", "\u{b}"])).into_bytes(),
        8 => fields.push(String::new()),
        9 => fields[any].clear(),
        10 => return vec![],
        11 => fields[any].push('\r'),
        12 => return dice.pick(&["\r", "S\r", "F\r", "F\t3\r", "\r\r"]).as_bytes().to_vec(),
        13 => fields[any].push('\0'),
        14 => {
            let mut line = fields.join("\t").into_bytes();
            let place = dice.below(line.len() as u64 + 1) as usize;
            line.insert(place, dice.between(128, 255) as u8);
            return line;
        }
        15 => {
            let count = dice.pick(&[11, 11, 12, 20, 100]);
            fields.truncate(4);
            fields.extend((0..count).map(|_| "4000".to_string()));
        }
        16 => fields.truncate(dice.between(1, 4) as usize),
        17 => fields[not_current] = dice.pick(&["65535", "65536", "65537", "99999"]).to_string(),
        18 => {
            fields[1] = dice
                .pick(&["32768", "-32769", "65535", "-65536", "40000", "32767", "-32768"])
                .to_string()
        }
        19 => fields[any] = huge_number(dice, &fields[any]),
        20 => return exact_length(dice, fields.join("\t").into_bytes()),
        21 => {
            let length = dice.between(1000, 9000) as usize;
            return stretched(dice, fields.join("\t").into_bytes(), length);
        }
        22 => fields[0] = dice.pick(&["s", "f"]).to_string(),
        23 => fields[0] = dice.pick(&["X", "SS", "SF", " S", "S ", "", "0", "\u{a7}"]).to_string(),
        24 => return dice.pick(&COMMAND_LINES).into(),
        25 => fields[any] = dice.pick(&["12a", "0x10", "1e3", "1.0", "a", "_", "1_0"]).to_string(),
        26 => return dice.pick(&["S", "S\t", "\t", "\t\t\t\t", "-", "0", "\0", "#"]).into(),
        27 => {
            let length = dice.between(1, 60) as usize;
            return dice.bytes(length).into_iter().filter(|byte| *byte != b'\n').collect();
        }
        28 => {
            // One byte put in, out or in another's place.
            let mut line = fields.join("\t").into_bytes();
            let place = dice.below(line.len() as u64) as usize;
            match dice.below(3) {
                0 => line[place] = dice.pick(b"\t-0159 S\r\0"),
                1 => line.insert(place, dice.pick(b"\t-0159 S\r\0")),
                _ => {
                    line.remove(place);
                }
            }
            return line;
        }
        _ => fields.insert(any, dice.pick(&["0", "1", "4000", "-1"]).to_string()),
    }
    fields.join("\t").into_bytes()
}

/// A number too long, some of which would wrap to the field's own value.
fn huge_number(dice: &mut Dice, field: &str) -> String {
    let value: i128 = field.parse().unwrap_or(1);
    match dice.below(5) {
        0 => (value + (1 << 16)).to_string(),
        1 => (value + (1 << 32)).to_string(),
        2 => (value + (1 << 64)).to_string(),
        3 => format!("{}{}", field, field.trim_start_matches('-')),
        _ => "9".repeat(dice.between(6, 100) as usize),
    }
}

/// The line made 127, 128, 129 or 130 bytes long.
fn exact_length(dice: &mut Dice, line: Vec<u8>) -> Vec<u8> {
    let length = dice.between(127, 130) as usize;
    stretched(dice, line, length)
}

/// The line made so long: zeros before the last number, cells without end, or one byte repeated.
fn stretched(dice: &mut Dice, mut line: Vec<u8>, length: usize) -> Vec<u8> {
    match dice.below(4) {
        0 => {
            let last = line.iter().rposition(|byte| *byte == b'\t').unwrap_or(0) + 1;
            while line.len() < length {
                line.insert(last, b'0');
            }
        }
        1 => {
            while line.len() < length {
                line.extend_from_slice(b"\t4000");
            }
        }
        2 => line = vec![dice.pick(b"SF\t01 "); length],
        _ => {
            let byte = dice.pick(b"\t0159 S\r\0\xff");
            line.resize(length.max(line.len()), byte);
        }
    }
    line.truncate(length);
    line
}

/// A line of 70,000 to 200,000 bytes, sometimes with a good line at its start or its end.
fn very_long_line(dice: &mut Dice, good: Vec<u8>) -> Vec<u8> {
    let length = dice.between(70_000, 200_000) as usize;
    let mut line = vec![dice.pick(b"S\t5 \r\xff"); length];
    match dice.below(3) {
        0 => line[..good.len()].copy_from_slice(&good),
        1 => line[length - good.len()..].copy_from_slice(&good),
        _ => {}
    }
    line
}

fn join_lines(dice: &mut Dice, lines: &[Vec<u8>]) -> Vec<u8> {
    let mut log = lines.join(&b'\n');
    if !lines.is_empty() && !dice.one_in(3) {
        log.push(b'\n');
    }
    log
}

/// A log for this page, with about `count` lines.
fn case_log(dice: &mut Dice, words: &[u16], count: u64) -> Vec<Vec<u8>> {
    let mut story = Story::new(words, dice.one_in(2));
    let mut lines: Vec<Vec<u8>> = vec![];
    if count > 0 && !dice.one_in(4) {
        lines.push(command_line(3));
    }
    while (lines.len() as u64) < count {
        lines.push(story.some_line(dice));
    }
    lines
}

/// Several thousand lines, most of them of a few bytes, so that a read may end anywhere.
fn short_lines(dice: &mut Dice, words: &[u16]) -> Vec<Vec<u8>> {
    let mut story = Story::new(words, dice.one_in(2));
    let count = dice.between(4000, 9000);
    (0..count)
        .map(|_| match dice.below(10) {
            0 => vec![],
            1 => dice.pick(&["S", "F", "F\t3", "F\t4", "S\t1\t2", "x", "\r", "F\t0"]).into(),
            2 => command_line(dice.below(5)),
            _ => story.some_line(dice),
        })
        .collect()
}

/// The page and the log of case k. Each case has its own dice, so it does not depend on COUNT.
pub(crate) fn case(seed: u64, k: u64) -> (Vec<u8>, Vec<u8>) {
    let mut dice = Dice(Dice(seed).next() ^ (k + 1).wrapping_mul(0xD6E8_FEB8_6659_FD93));
    let lively = dice.below(4);
    let words = match k % 50 {
        9 | 34 => patient_words(&mut dice),
        _ if dice.one_in(8) => accepted_words(some_layout(&mut dice), &mut dice),
        _ => lively_words(&mut dice, lively),
    };
    let page =
        if k % 50 != 17 && dice.one_in(14) { random_page(&mut dice).1 } else { page_of(&words) };
    let count = dice.below(201);
    let mut lines = match k % 50 {
        9 | 34 => {
            let count = dice.between(1000, 4000) as u64;
            case_log(&mut dice, &words, count)
        }
        33 => short_lines(&mut dice, &words),
        _ if dice.one_in(40) => return (page, dice.pick(&["", "\n", "\n\n", "F\t3", "S"]).into()),
        _ => case_log(&mut dice, &words, count),
    };
    if k % 50 == 17 {
        for _ in 0..dice.between(1, 2) {
            let good = sample_line(&Story::new(&words, false).sample);
            let long = very_long_line(&mut dice, good);
            lines.insert(dice.below(lines.len() as u64 + 1) as usize, long);
        }
    }
    (page, join_lines(&mut dice, &lines))
}

pub(crate) fn write_cases(seed: u64, count: u64, directory: &str) -> Result<(), String> {
    fs::create_dir_all(directory).map_err(|error| file_error(directory, error))?;
    for k in 0..count {
        let (page, log) = case(seed, k);
        for (ending, bytes) in [("page", page), ("log", log)] {
            let name = format!("{}/{}.{}", directory, k, ending);
            fs::write(&name, bytes).map_err(|error| file_error(&name, error))?;
        }
    }
    Ok(())
}
