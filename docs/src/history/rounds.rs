//! Document 02, request 14: what long waiting gives, counted over histories.

use super::cases::case;
use super::dice::Dice;
use super::pages::{everyday_words, page_of, some_layout};
use super::selftest::{accepted, page_with, sample_of, Checks};
use super::*;

/// One accepted sample: the start cell, and bit k - 1 of each word for cell k.
struct Turn {
    start: usize,
    wants: u16,
    rests: u16,
    bled: u16,
}

/// The accepted samples since a load.
struct Turns {
    n: usize,
    most_bled: u32,
    turns: Vec<Turn>,
}

fn cells_that(n: usize, test: impl Fn(usize) -> bool) -> u16 {
    (1..=n).filter(|&cell| test(cell)).map(|cell| 1 << (cell - 1)).sum()
}

impl Turns {
    fn of(page: Page, samples: Vec<Sample>) -> Turns {
        let (n, most_bled) = (page.n(), page.most_bled());
        let mut history = History::load(page);
        let mut turns = vec![];
        for sample in samples {
            let rests = cells_that(n, |cell| history.rests(cell));
            if history.offer(sample.clone()).is_ok() {
                let wants = cells_that(n, |cell| history.wants(&sample, cell));
                turns.push(Turn {
                    start: history.start_cell(),
                    wants,
                    rests,
                    bled: history.bled_now(),
                });
            }
        }
        Turns { n, most_bled, turns }
    }

    /// Stretches of `length` consecutive samples, anywhere, at each of which a cell wants: how many
    /// there are, and in how many of them it is bled at fewer than m.
    fn stretches(&self, length: usize, m: usize) -> [usize; 2] {
        let (mut all, mut short) = (0, 0);
        for place in 0..self.n {
            // Before sample i: how often the cell was bled, and for how many samples it has wanted.
            let (mut bled, mut wanted) = (vec![0], vec![0]);
            for (i, turn) in self.turns.iter().enumerate() {
                bled.push(bled[i] + usize::from(bit(turn.bled, place)));
                wanted.push(if bit(turn.wants, place) { wanted[i] + 1 } else { 0 });
            }
            for end in (length..bled.len()).filter(|&end| wanted[end] >= length) {
                all += 1;
                short += usize::from(bled[end] - bled[end - length] < m);
            }
        }
        [all, short]
    }

    /// Cells that want and don't rest and are left out: those beside a bled cell while fewer than K
    /// are bled, those that are beside none while K are bled, and those that neither explains.
    fn left_out(&self) -> [usize; 3] {
        let mut counts = [0; 3];
        for turn in &self.turns {
            let left = turn.wants & !turn.rests & !turn.bled;
            let beside = turn.bled << 1 | turn.bled >> 1;
            let full = turn.bled.count_ones() == self.most_bled;
            for place in (0..self.n).filter(|&place| bit(left, place)) {
                match (bit(beside, place), full) {
                    (true, false) => counts[0] += 1,
                    (false, true) => counts[1] += 1,
                    (false, false) => counts[2] += 1,
                    (true, true) => {}
                }
            }
        }
        counts
    }

    /// At the turn of the cell that stands `after` places after the start cell: how often it wants
    /// and doesn't rest, how often it wants and rests, and how often it is not so that it is bled
    /// exactly if it wants and doesn't rest.
    fn own_turns(&self, after: usize) -> [usize; 3] {
        let mut counts = [0; 3];
        for turn in &self.turns {
            let place = (turn.start - 1 + after) % self.n;
            let (wants, rests) = (bit(turn.wants, place), bit(turn.rests, place));
            counts[0] += usize::from(wants && !rests);
            counts[1] += usize::from(wants && rests);
            counts[2] += usize::from(bit(turn.bled, place) != (wants && !rests));
        }
        counts
    }
}

/// A history in which some cells want bleeding for a long while and the others now and then.
fn busy(dice: &mut Dice) -> Turns {
    let n = dice.between(2, 10);
    let mut words = everyday_words(some_layout(dice), n as u16);
    words[2] = dice.between(1, 5) as u16;
    words[3] = dice.pick(&[1, 1, 1, 2, 3, 5, 240]);
    words[4] = 0;
    let page = accepted(&page_of(&words));
    let mut samples = vec![];
    while samples.len() < 150 {
        // The lowest cell wants nothing.
        let lowest = dice.below(n as u64) as usize;
        let steady = dice.next() as u16 & dice.next() as u16;
        let often = dice.between(1, 4) as u64;
        for _ in 0..dice.between(1, 6 * (n + 1)) {
            let wants = |place| place != lowest && (bit(steady, place) || dice.one_in(often));
            let cells: Vec<bool> = (0..n as usize).map(wants).collect();
            let cells: Vec<u16> =
                cells.iter().map(|wants| 4000 + 100 * u16::from(*wants)).collect();
            samples.push(sample_of(if dice.one_in(100) { 0 } else { 500 }, &cells));
        }
    }
    Turns::of(page, samples)
}

/// The history of a case; its page may be refused.
fn of_case(k: u64) -> Option<Turns> {
    let (page, log) = case(14, k);
    let samples = lines(&log).into_iter().filter_map(|line| match read_line(line) {
        Some(Line::Sample(sample)) => Some(sample),
        _ => None,
    });
    judge(&page).ok().map(|page| Turns::of(page, samples.collect()))
}

/// Document 01's three cells: K 1, R 1, "At samples 3 to 7 the wanting cells are {1,2}, {1,3},
/// {1,2}, {1,3}, {1,2}; none want earlier".
pub(crate) fn three_cells() -> (Page, Vec<Sample>) {
    let page = page_with(3, &[(2, 1), (3, 1), (4, 3900), (5, 10), (6, 100)]);
    let none = [4000, 4000, 4000];
    let one_two = [4020, 4020, 4000];
    let one_three = [4020, 4000, 4020];
    let samples = [none, none, one_two, one_three, one_two, one_three, one_two];
    (page, samples.iter().map(|cells| sample_of(500, cells)).collect())
}

fn total<const N: usize>(all: &[Turns], count: impl Fn(&Turns) -> [usize; N]) -> [usize; N] {
    let mut sums = [0; N];
    for turns in all {
        for (sum, one) in sums.iter_mut().zip(count(turns)) {
            *sum += one;
        }
    }
    sums
}

pub(crate) fn check_the_rounds(checks: &mut Checks) {
    let mut dice = Dice(14);
    let mut all: Vec<Turns> = (0..300).map(|_| busy(&mut dice)).collect();
    all.extend((0..200).filter_map(of_case));
    // "a cell wanting at m × (n + 1) consecutive accepted samples is bled at no fewer than m of
    // them, for every m from 0"
    for m in 0..=5 {
        let [found, short] = total(&all, |turns| turns.stretches(m * (turns.n + 1), m));
        let what = format!("bled {} times in {} × (n + 1): {} of {} are not", m, m, short, found);
        checks.that(&what, found > 1000 && short == 0);
    }
    // "Students always say n would do. It won't, and 01 shows why": the test finds it there, where
    // cell 1 wants at three samples and gets nothing, and in the histories above.
    for m in 1..=5 {
        let [_, short] = total(&all, |turns| turns.stretches(m * turns.n, m));
        checks.that(&format!("{} × n samples would not do", m), short > 0);
    }
    let (page, samples) = three_cells();
    let three = Turns::of(page, samples);
    checks.that("01's three cells: three samples would not do", three.stretches(3, 1) == [3, 1]);
    checks.that("01's three cells: four do", three.stretches(4, 1) == [2, 0]);
    // "a wanting cell that isn't resting is left out only if a neighbour was taken or K were taken"
    let [beside, full, wasted] = total(&all, Turns::left_out);
    let what = format!("nothing is wasted: {} beside, {} full, {} neither", beside, full, wasted);
    checks.that(&what, beside > 1000 && full > 1000 && wasted == 0);
    // "at a cell's own start turn, two histories that agree on whether it wants and rests agree on
    // whether it is bled, whatever the other cells read"; at the turn of another it is not so.
    let [takes, rests, unlike] = total(&all, |turns| turns.own_turns(0));
    let what = format!("its own turn: {} take, {} rest, {} are unlike", takes, rests, unlike);
    checks.that(&what, takes > 1000 && rests > 100 && unlike == 0);
    let [_, _, unlike] = total(&all, |turns| turns.own_turns(1));
    checks.that("the turn of the cell before is not one's own", unlike > 0);
}
