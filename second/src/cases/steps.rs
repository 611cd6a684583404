//! Random lists of steps, driven along a run so that steps are done, snapshots complete, cuts
//! happen and every refusal comes up.

use crate::job::Accepted;
use crate::random::Random;
use crate::run::Stepper;
use crate::totals::Item;

/// What the next steps aim at.
#[derive(Clone, Copy, PartialEq)]
enum Mood {
    /// Any possible step.
    Any,
    /// Some channels are not delivered from, so that they fill.
    Fill,
    /// Barriers first, so that channels are blocked.
    Block,
    /// A snapshot to its end.
    Finish,
    /// Deliveries only.
    Deliver,
    /// Any number at all.
    Noise,
}

pub struct Driver<'a> {
    stepper: Stepper<'a>,
    mood: Mood,
    left: usize,
    held: Vec<bool>,
    cut_next: bool,
}

impl<'a> Driver<'a> {
    pub fn new(accepted: &'a Accepted) -> Driver<'a> {
        Driver {
            stepper: Stepper::new(accepted, crate::fault::Fault::None),
            mood: Mood::Any,
            left: 0,
            held: vec![false; 32],
            cut_next: false,
        }
    }

    /// The next step's number; the run is advanced by it.
    pub fn next(&mut self, random: &mut Random) -> u32 {
        if self.left == 0 {
            self.change_mood(random);
        }
        self.left -= 1;
        let number = match random.chance(1, 9) {
            true => self.refused(random),
            false => self.wanted(random),
        };
        if self.stepper.step(number) == 20 && self.mood == Mood::Finish {
            self.left = 0;
            self.cut_next = random.chance(1, 3);
        }
        number
    }

    fn change_mood(&mut self, random: &mut Random) {
        let moods = [
            (Mood::Any, 20),
            (Mood::Fill, 60),
            (Mood::Fill, 150),
            (Mood::Fill, 150),
            (Mood::Block, 40),
            (Mood::Finish, 150),
            (Mood::Finish, 300),
            (Mood::Deliver, 10),
            (Mood::Noise, 3),
        ];
        let (mood, longest) = random.pick(&moods);
        self.mood = mood;
        self.left = 1 + random.below(longest);
        let often = 1 + random.below(3);
        for held in &mut self.held {
            *held = random.chance(1, often + 1);
        }
    }

    /// A step that fits the mood, or the nearest to it that is possible.
    fn wanted(&mut self, random: &mut Random) -> u32 {
        if self.cut_next || random.chance(1, 200) {
            self.cut_next = false;
            return 65;
        }
        let snapshots = matches!(self.mood, Mood::Block | Mood::Finish);
        let begin = random.chance(1, if snapshots { 4 } else { 60 });
        if begin && !self.stepper.run.under_way {
            return 64;
        }
        if self.mood == Mood::Noise {
            return noise(random);
        }
        let possible: Vec<u32> = (0..64).filter(|n| self.stepper.refusal(*n) == 0).collect();
        let fitting: Vec<u32> = possible
            .iter()
            .copied()
            .filter(|number| self.fits(*number))
            .collect();
        match (fitting.is_empty(), possible.is_empty()) {
            (false, _) => random.pick(&fitting),
            (true, false) => {
                self.left = self.left.min(2);
                random.pick(&possible)
            }
            (true, true) => random.pick(&[64, 64, 65, 66, 0, 1, 32, 33, 48]),
        }
    }

    fn fits(&self, number: u32) -> bool {
        let delivery = number < 32;
        let held = delivery && self.held[number as usize];
        match self.mood {
            Mood::Any | Mood::Noise => true,
            Mood::Fill => !held,
            Mood::Block => number >= 48 || (delivery && (self.barrier_ahead(number) || !held)),
            Mood::Finish => !(32..48).contains(&number) || self.held[number as usize - 32],
            Mood::Deliver => delivery,
        }
    }

    fn barrier_ahead(&self, number: u32) -> bool {
        let items = self.stepper.run.channels.get(number as usize);
        items.is_some_and(|items| items.front() == Some(&Item::Barrier))
    }

    /// A refused step, every refusal that the run has now equally often.
    fn refused(&self, random: &mut Random) -> u32 {
        let mut wishes = [11, 12, 13, 14, 15];
        random.shuffle(&mut wishes);
        for wish in wishes {
            let wished = |number: &u32| self.stepper.refusal(*number) == wish;
            let refused: Vec<u32> = (0..68).filter(wished).collect();
            if !refused.is_empty() && random.chance(4, 5) {
                return random.pick(&refused);
            }
        }
        noise(random)
    }
}

/// Any number of 16 bits, most of them near the ranges' ends.
pub fn noise(random: &mut Random) -> u32 {
    let edges = [
        0, 31, 32, 47, 48, 63, 64, 66, 67, 255, 256, 288, 320, 65_535,
    ];
    match random.below(4) {
        0 => random.pick(&edges),
        1 => random.below(65_536) as u32,
        _ => random.below(64) as u32,
    }
}
