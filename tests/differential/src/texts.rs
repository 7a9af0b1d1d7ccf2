//! The case texts of a run, one for each case of a seed.

use crate::damage::{self, damage};
use crate::limits;
use crate::random::Random;
use crate::schedules::{fill, lively, Writer};

pub struct Texts {
    seed: u64,
    limits: Vec<Vec<u8>>,
    /// How often each kind of damage was done.
    pub damages: [u64; damage::KINDS.len()],
}

impl Texts {
    pub fn new(seed: u64) -> Texts {
        Texts {
            seed,
            limits: limits::texts(),
            damages: [0; damage::KINDS.len()],
        }
    }

    /// The text of one case: first those at the limits, then random ones.
    pub fn text(&mut self, case: u64) -> Vec<u8> {
        if let Some(text) = self.limits.get(case as usize) {
            return text.clone();
        }
        let random = &mut Random::new(self.seed, case);
        match random.below(100) {
            0..=63 => lively(random, usize::MAX).text,
            64..=95 => {
                let mut text = lively(random, 12).text;
                for _ in 0..random.pick(&[1, 1, 1, 2, 3]) {
                    let at = random.below(damage::KINDS.len());
                    damage(random, at, &mut text);
                    self.damages[at] += 1;
                }
                text
            }
            96..=98 => {
                let claimants = random.pick(&[0, 1, 63, 64, 65, 66, 255, 256, u32::MAX]);
                let mut writer = Writer::new(claimants, random.pick(&[0, 0, 1, u32::MAX]));
                let lines = random.below(20);
                fill(random, &mut writer, lines);
                writer.text
            }
            _ => {
                // Long ones, and now and then a line too many.
                let mut writer =
                    Writer::new(random.between(1, 64) as u32, random.pick(&[1, 3, u32::MAX]));
                let lines = random.between(2_040, 2_049);
                fill(random, &mut writer, lines);
                writer.text
            }
        }
    }
}
