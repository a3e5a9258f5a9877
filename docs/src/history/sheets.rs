//! Sheets to compare with: pages as text, and what damages a sheet on its way.

use super::dice::Dice;
use super::pages::*;
use super::selftest::Checks;
use super::*;

/// The lines of a text, each with its newline where it has one.
fn split(text: &[u8]) -> Vec<Vec<u8>> {
    text.split_inclusive(|&byte| byte == b'\n').map(|line| line.to_vec()).collect()
}

fn join(lines: &[Vec<u8>]) -> Vec<u8> {
    lines.concat()
}

/// A line with another field: 0 number, 1 name, 2 value.
fn with_field(line: &[u8], place: usize, field: &str) -> Vec<u8> {
    let line = String::from_utf8_lossy(line).into_owned();
    let mut fields: Vec<&str> = line.trim_end_matches('\n').split('\t').collect();
    if let Some(old) = fields.get_mut(place) {
        *old = field;
    }
    (fields.join("\t") + "\n").into_bytes()
}

fn field(line: &[u8], place: usize) -> String {
    let line = String::from_utf8_lossy(line).into_owned();
    line.trim_end_matches('\n').split('\t').nth(place).unwrap_or("").to_string()
}

/// The words of a page to make a sheet of: accepted, or one or two of them wrong, or the mark.
fn words_for_a_sheet(dice: &mut Dice) -> Words {
    let layout = some_layout(dice);
    let mut words = accepted_words(layout, dice);
    match dice.below(6) {
        0 => {
            for _ in 0..dice.between(1, 2) {
                let word = dice.between(1, layout.last as i64 - 1) as usize;
                words[word] = dice.next() as u16;
            }
        }
        1 => words[0] = dice.pick(&[0x17A4, 0x17A5, 0xA417, 0xA517, 0, 0xFFFF, 6051, 6054]),
        _ => {}
    }
    words
}

/// Text that stands where a value belongs.
fn strange_value(dice: &mut Dice, value: &str) -> String {
    match dice.below(18) {
        0 => String::new(),
        1 => format!("+{}", value),
        2 => format!("-{}", value),
        3 => format!("0{}", value),
        4 => format!("00{}", value),
        5 => format!(" {}", value),
        6 => format!("{} ", value),
        7 => format!("{}{}", value, dice.below(10)),
        8 => "65536".to_string(),
        9 => "65535".to_string(),
        10 => "256".to_string(),
        11 => format!("{}", 65536 + value.parse::<u64>().unwrap_or(0)),
        12 => format!("{}", (1u64 << 32) + value.parse::<u64>().unwrap_or(0)),
        13 => format!("1844674407370955{}", 1616 + value.parse::<u64>().unwrap_or(0)),
        14 => format!("{}.0", value),
        15 => format!("0x{:x}", value.parse::<u64>().unwrap_or(0)),
        16 => format!("{}\t", value),
        _ => "99999".to_string(),
    }
}

/// One thing done to a sheet.
fn damaged(dice: &mut Dice, text: &[u8], names: &Names) -> Vec<u8> {
    let mut lines = split(text);
    let mut bytes = text.to_vec();
    if lines.len() < 2 {
        return bytes;
    }
    let (place, other) = (dice.below(lines.len() as u64), dice.below(lines.len() as u64));
    let (place, other) = (place as usize, other as usize);
    let at = dice.below(bytes.len() as u64) as usize;
    let last = lines.len() - 1;
    match dice.below(26) {
        0 | 1 | 2 => bytes[at] = dice.next() as u8,
        3 => bytes[at] ^= 1 << dice.below(8),
        4 => bytes.insert(at, dice.pick(b"\n\t\r 0a9+-\0")),
        5 => {
            bytes.remove(at);
        }
        6 => bytes.truncate(at),
        7 => {
            lines.remove(place);
            return join(&lines);
        }
        8 => {
            lines.insert(place, lines[place].clone());
            return join(&lines);
        }
        9 => {
            lines.swap(place, other);
            return join(&lines);
        }
        10 => {
            // CR before one newline, or before each.
            for line in lines.iter_mut().skip(if dice.one_in(2) { 0 } else { place }) {
                let end = line.len() - 1;
                line.insert(end, b'\r');
                if dice.one_in(2) {
                    break;
                }
            }
            return join(&lines);
        }
        11 => {
            bytes.pop();
        }
        12 => {
            bytes.extend(dice.pick(&[&b"\n"[..], b"64\t\t0\n", b"80\t\t0\n", b"a", b"\0", b"\t"]))
        }
        13 => {
            lines[place] = with_field(&lines[place], 2, "65536");
            return join(&lines);
        }
        14 => {
            let value = dice.pick(&["256", "255", "0", "300", "511", "65535"]);
            lines[last] = with_field(&lines[last], 2, value);
            return join(&lines);
        }
        15 => {
            // The check byte's own value and 256 above it.
            let value = field(&lines[last], 2).parse::<u32>().unwrap_or(0) + 256;
            lines[last] = with_field(&lines[last], 2, &value.to_string());
            return join(&lines);
        }
        16 | 17 => {
            let value = strange_value(dice, &field(&lines[place], 2));
            lines[place] = with_field(&lines[place], 2, &value);
            return join(&lines);
        }
        18 => {
            let mark = dice.pick(&["6052", "6053", "42263", "42007", "06053", "6053 ", "+6053"]);
            lines[0] = with_field(&lines[0], 2, mark);
            return join(&lines);
        }
        19 => {
            let name = dice.pick(&names.0.iter().map(String::as_str).collect::<Vec<_>>());
            lines[place] = with_field(&lines[place], 1, name);
            return join(&lines);
        }
        20 => {
            let name = field(&lines[place], 1);
            let name = match dice.below(3) {
                0 => name.to_uppercase(),
                1 => name + " ",
                _ => name.replacen(' ', "  ", 1),
            };
            lines[place] = with_field(&lines[place], 1, &name);
            return join(&lines);
        }
        21 => {
            let number = match dice.below(4) {
                0 => format!("0{}", place),
                1 => format!("{}", place + 1),
                2 => format!("+{}", place),
                _ => String::new(),
            };
            lines[place] = with_field(&lines[place], 0, &number);
            return join(&lines);
        }
        22 | 23 => {
            // Another value of the right form.
            let value = dice.pick(&[0, 1, 2, 3, 240, 241, 6000, 6001, 32768, dice_word(at), 65535]);
            lines[place] = with_field(&lines[place], 2, &value.to_string());
            return join(&lines);
        }
        24 => {
            let end = lines[place].len() - 1;
            let more = vec![dice.pick(b"0 1x\t"); dice.pick(&[1, 40, 5000, 70000])];
            lines[place].splice(end..end, more);
            return join(&lines);
        }
        _ => bytes.extend(vec![dice.pick(b"\n0 "); dice.pick(&[1, 2000, 63000, 70000])]),
    }
    bytes
}

fn dice_word(at: usize) -> u32 {
    (at as u32).wrapping_mul(2654435761) >> 16
}

/// A sheet as it might come in: as written, damaged once or twice, sealed again or not.
fn sheet_that_comes_in(dice: &mut Dice, names: &Names) -> Vec<u8> {
    let words = words_for_a_sheet(dice);
    let mut text = sheet_of(&page_of(&words), layout_of(&words), names);
    for _ in 0..dice.pick(&[0, 1, 1, 1, 1, 1, 1, 2]) {
        text = damaged(dice, &text, names);
    }
    match seal_sheet(&text, names) {
        Ok(sealed) if dice.one_in(2) => sealed,
        _ if dice.one_in(200) => vec![],
        _ => text,
    }
}

/// What a program writes for a file of this name, and its status behind it.
fn expect(wanted: &mut Vec<u8>, name: &str, answer: Result<Vec<u8>, Refusal>) {
    let status = match answer {
        Ok(bytes) => {
            wanted.extend(bytes);
            0
        }
        Err(refusal) => {
            let text = format!("{}: refused {} {}\n", name, refusal.number, refusal.word);
            wanted.extend(text.into_bytes());
            1
        }
    };
    wanted.extend(format!("{} ended {}\n", name, status).into_bytes());
}

/// DIR/K.page, accepted pages of either kind in turn, and DIR/sheet.want, what the program `sheet`
/// writes for them all; DIR/K.sheet, sheets as they come in, and what `unsheet` and `seal` write.
pub(crate) fn write_sheets(
    names: &Names,
    seed: u64,
    pages: u64,
    sheets: u64,
    directory: &str,
) -> Result<(), String> {
    let mut dice = Dice(seed);
    let save = |name: &str, bytes: &[u8]| {
        let path = format!("{}/{}", directory, name);
        fs::write(&path, bytes).map_err(|error| file_error(&path, error))
    };
    fs::create_dir_all(directory).map_err(|error| file_error(directory, error))?;
    let mut wanted = vec![];
    for k in 0..pages {
        let layout = if k % 2 == 0 { short() } else { long() };
        let page = page_of(&accepted_words(layout, &mut dice));
        let name = format!("{}.page", k);
        save(&name, &page)?;
        expect(&mut wanted, &name, write_sheet(&page, names));
    }
    save("sheet.want", &wanted)?;
    let (mut read, mut sealed, mut both) = (vec![], vec![], vec![]);
    for k in 0..sheets {
        let text = sheet_that_comes_in(&mut dice, names);
        let name = format!("{}.sheet", k);
        save(&name, &text)?;
        expect(&mut read, &name, unsheet(&text, names));
        expect(&mut sealed, &name, seal_sheet(&text, names));
        if let Ok(text) = seal_sheet(&text, names) {
            expect(&mut both, "/dev/stdin", unsheet(&text, names));
        }
    }
    save("unsheet.want", &read)?;
    save("seal.want", &sealed)?;
    save("both.want", &both)
}

/// COUNT pages and COUNT sheets for C: `w`, what the writer answers, the page's length, the page and
/// its sheet; `r`, what the reader answers, the size of its page buffer, the sheet and the page.
pub(crate) fn write_calls(
    names: &Names,
    seed: u64,
    count: u64,
    out: &mut dyn Write,
) -> Result<(), String> {
    let mut dice = Dice(seed);
    let shown = |bytes: &[u8]| if bytes.is_empty() { "-".to_string() } else { hex(bytes) };
    for k in 0..count {
        let page = match k % 3 {
            0 => random_page(&mut dice).1,
            _ => page_of(&accepted_words(some_layout(&mut dice), &mut dice)),
        };
        let (answer, sheet) = match write_sheet(&page, names) {
            Ok(sheet) => (sheet.len() as u64, sheet),
            Err(refusal) => (u64::from(refusal.number) * 65536 + refusal.word as u64, vec![]),
        };
        let page_shown = shown(&page);
        writeln!(out, "w {} {} {} {}", answer, page.len(), page_shown, shown(&sheet))
            .map_err(stdout_error)?;
        let mut text = sheet_that_comes_in(&mut dice, names);
        text.truncate(4096);
        for size in [0, 127, 128, 129, 159, 160, 161] {
            let (answer, page) = match read_sheet(&text, size, names) {
                Ok(page) => (0, page),
                Err(refusal) => (refused_as(u32::from(refusal.number), refusal.word), vec![]),
            };
            writeln!(out, "r {} {} {} {}", answer, size, shown(&text), shown(&page))
                .map_err(stdout_error)?;
        }
    }
    Ok(())
}

/// Names for the self test, which part at word 56 as those of docs/ do.
fn test_names() -> Names {
    let word = |row: usize| if row < 64 { row } else { row - 64 };
    let shared = |row: usize| if word(row) < 56 { word(row) } else { 1000 + row };
    Names((0..144).map(|row| format!("name {}", shared(row))).collect())
}

/// Document 02's sentences on sheets, one by one.
pub(crate) fn check_the_sheets(checks: &mut Checks) {
    let names = test_names();
    let refused = |answer: Result<Vec<u8>, Refusal>| match answer {
        Ok(_) => (0, 0),
        Err(refusal) => (refusal.number, refusal.word),
    };
    for (layout, count) in [(short(), 64), (long(), 80)] {
        let page = page_of(&everyday_words(layout, 7));
        let text = sheet_of(&page, layout, &names);
        let lines = split(&text);
        checks.that("a sheet has its lines", lines.len() == count);
        checks.that("it is read back", unsheet(&text, &names) == Ok(page.clone()));
        checks.that("sealing it changes nothing", seal_sheet(&text, &names) == Ok(text.clone()));
        for place in 0..count {
            let mut fewer = lines.clone();
            fewer.remove(place);
            let what = format!("line {} left out", place + 1);
            checks.that(&what, refused(unsheet(&join(&fewer), &names)) == (19, place + 1));
            let mut large = lines.clone();
            let most = if place + 1 == count { "256" } else { "65536" };
            large[place] = with_field(&large[place], 2, most);
            let what = format!("{} in line {}", most, place + 1);
            checks.that(&what, refused(unsheet(&join(&large), &names)) == (19, place + 1));
        }
        for size in [0, 127, 129, 159, 161, if count == 64 { 160 } else { 128 }] {
            let answer = refused(read_sheet(&text, size, &names));
            checks.that("a page buffer of another size", answer == (1, 0));
        }
        let mut behind = text.clone();
        behind.push(b'\n');
        let answer = refused(unsheet(&behind, &names));
        checks.that("an extra line", answer == (19, count + 1));
        let cut = &text[..text.len() - 1];
        checks.that("no last newline", refused(unsheet(cut, &names)) == (19, count));
        checks.that("19 goes before 1", refused(read_sheet(cut, 0, &names)) == (19, count));
        let mut other = lines.clone();
        other[0] = with_field(&other[0], 2, if count == 64 { "6053" } else { "6052" });
        checks.that("the other mark", refused(unsheet(&join(&other), &names)) == (19, 57));
        let mut edited = lines;
        edited[1] = with_field(&edited[1], 2, "11");
        let edited = join(&edited);
        checks.that("a value edited", refused(unsheet(&edited, &names)) == (4, 0));
        let sealed = seal_sheet(&edited, &names).unwrap_or_default();
        checks.that("and sealed", refused(unsheet(&sealed, &names)) == (6, 1));
    }
    checks.that("an empty sheet", refused(unsheet(b"", &names)) == (19, 1));
}
