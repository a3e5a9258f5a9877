//! A long log: a speaker that is charged, played and left alone in turn.

use super::cases::sample_line;
use super::dice::Dice;
use super::*;

#[derive(Clone, Copy, PartialEq)]
enum Phase {
    Charging,
    Resting,
    Playing,
}

/// A speaker charged, played and left alone in turn. Voltages here are tenths of a millivolt.
struct Speaker {
    phase: Phase,
    after_rest: Phase,
    left: i64,
    level: i64,
    offsets: Vec<i64>,
    goals: Vec<i64>,
    heat: [i64; 2],
    heat_goals: [i64; 2],
    peak: i64,
    peak_left: i64,
}

impl Speaker {
    fn new(n: usize, dice: &mut Dice) -> Speaker {
        Speaker {
            phase: Phase::Charging,
            after_rest: Phase::Playing,
            left: 0,
            level: 39000,
            offsets: (0..n).map(|_| dice.between(0, 200)).collect(),
            goals: vec![100; n],
            heat: [2980, 2980],
            heat_goals: [3050, 3050],
            peak: 0,
            peak_left: 0,
        }
    }

    fn enter(&mut self, phase: Phase, dice: &mut Dice) {
        self.phase = phase;
        self.left = dice.between(60, 400);
        let hottest = match phase {
            Phase::Charging => 3230,
            Phase::Resting => 2990,
            Phase::Playing => 3460,
        };
        self.heat_goals = [dice.between(2980, hottest), dice.between(2980, hottest)];
    }

    /// The level drifts; a full, empty or rested pack goes over to the next phase.
    fn drift(&mut self, dice: &mut Dice) {
        match self.phase {
            Phase::Charging => {
                self.level += dice.between(1, 7);
                if self.level > 42600 {
                    self.after_rest = Phase::Playing;
                    self.enter(Phase::Resting, dice);
                }
            }
            Phase::Playing => {
                self.level -= dice.between(0, 9);
                if self.level < 28800 {
                    self.after_rest = Phase::Charging;
                    self.enter(Phase::Resting, dice);
                }
            }
            Phase::Resting => {
                self.level += if self.after_rest == Phase::Playing { -6 } else { 8 };
                self.left -= 1;
                if self.left < 0 {
                    let next = self.after_rest;
                    self.enter(next, dice);
                }
            }
        }
    }

    fn current(&mut self, dice: &mut Dice) -> i64 {
        if self.peak_left > 0 {
            self.peak_left -= 1;
            return self.peak + dice.between(-40, 40);
        }
        match self.phase {
            Phase::Resting => return dice.between(-4, 4),
            Phase::Charging if dice.one_in(3000) => {
                self.peak = 3300;
                self.peak_left = dice.between(1, 9);
            }
            Phase::Playing if dice.one_in(900) => {
                self.peak = -9000;
                self.peak_left = dice.between(3, 14);
            }
            Phase::Playing if dice.one_in(20000) => return -21500,
            _ => {}
        }
        match self.phase {
            Phase::Playing => dice.between(-4200, -900),
            _ => 1500 + dice.between(-30, 30),
        }
    }

    fn next_sample(&mut self, dice: &mut Dice) -> Sample {
        self.drift(dice);
        if dice.one_in(400) {
            let place = dice.below(self.goals.len() as u64) as usize;
            self.goals[place] = dice.between(0, 400);
        }
        for (heat, goal) in self.heat.iter_mut().zip(self.heat_goals) {
            if dice.one_in(3) {
                *heat += (goal - *heat).signum();
            }
        }
        let noise = dice.next();
        let mut cells = vec![];
        for (place, (offset, goal)) in self.offsets.iter_mut().zip(&self.goals).enumerate() {
            *offset += (goal - *offset).signum();
            let ripple = (noise >> (4 * place) & 15) as i64;
            cells.push(((self.level + *offset + ripple) / 10) as u16);
        }
        Sample {
            current: self.current(dice) as i16,
            temperature_1: self.heat[0] as u16,
            temperature_2: self.heat[1] as u16,
            cells,
        }
    }
}

pub(crate) fn write_big(seed: u64, count: u64, n: usize, out: &mut dyn Write) -> io::Result<()> {
    let mut dice = Dice(seed);
    let mut speaker = Speaker::new(n, &mut dice);
    for _ in 0..count {
        let mut line = sample_line(&speaker.next_sample(&mut dice));
        line.push(b'\n');
        out.write_all(&line)?;
    }
    Ok(())
}
