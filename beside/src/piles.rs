//! Piles of arbiters, told by numbers.

use model::arbiter::{Arbiter, JobDriven, Lesser, Refresh, RequestDriven};
use model::generate::Random;
use model::Refusal;

/// What a pile is made of, in the order of the numbers that stand for it in a script.
#[derive(Clone, Copy, Debug, PartialEq, Eq, PartialOrd, Ord)]
pub enum Kind {
    RequestDriven,
    JobDriven,
    Lesser,
    RefreshOverRequestDriven,
    RefreshOverJobDriven,
    RefreshOverLesser,
    LesserOverRefreshes,
    RefreshOverRefresh,
}

pub const KINDS: [Kind; 8] = [
    Kind::RequestDriven,
    Kind::JobDriven,
    Kind::Lesser,
    Kind::RefreshOverRequestDriven,
    Kind::RefreshOverJobDriven,
    Kind::RefreshOverLesser,
    Kind::LesserOverRefreshes,
    Kind::RefreshOverRefresh,
];

/// A pile with its settings; those that its kind lacks are passed over.
#[derive(Clone, Copy, Debug, PartialEq, Eq)]
pub struct Pile {
    pub kind: Kind,
    pub cores: u64,
    pub l: u64,
    pub conflict: u64,
    pub reorder: u64,
    /// interval and length of the first refresh, and of the second
    pub refreshes: [(u64, u64); 2],
}

impl Pile {
    /// The pile of our station for this number of cores.
    pub fn station(cores: usize) -> Pile {
        Pile {
            kind: Kind::Lesser,
            cores: cores as u64,
            l: 48_750,
            conflict: 60_000,
            reorder: 5_000,
            refreshes: [(7_800_000, 350_000), (10_000_000, 10_000)],
        }
    }

    /// The bytes that stand for it at the head of a script.
    pub fn bytes(&self) -> Vec<u8> {
        let [first, second] = self.refreshes;
        let settings = [self.cores, self.l, self.conflict, self.reorder, first.0, first.1, second.0, second.1];
        let mut bytes = vec![self.kind as u8];
        bytes.extend(settings.iter().flat_map(|setting| setting.to_be_bytes()));
        bytes
    }

    fn requests(&self) -> Result<Box<dyn Arbiter>, Refusal> {
        Ok(Box::new(RequestDriven::new(self.cores as usize, self.l.into(), self.conflict.into(), self.reorder.into())?))
    }

    fn jobs(&self) -> Result<Box<dyn Arbiter>, Refusal> {
        Ok(Box::new(JobDriven::new(self.cores as usize, self.l.into(), self.conflict.into())?))
    }

    fn lesser(&self) -> Result<Box<dyn Arbiter>, Refusal> {
        Ok(Box::new(Lesser(self.requests()?, self.jobs()?)))
    }

    fn refresh(&self, k: usize, below: Box<dyn Arbiter>) -> Result<Box<dyn Arbiter>, Refusal> {
        let (interval, length) = self.refreshes[k];
        Ok(Box::new(Refresh::new(interval.into(), length.into(), below)?))
    }

    /// The model's arbiter, or the refusal of the first setting that is out of range, the lowest arbiter first.
    pub fn arbiter(&self) -> Result<Box<dyn Arbiter>, Refusal> {
        match self.kind {
            Kind::RequestDriven => self.requests(),
            Kind::JobDriven => self.jobs(),
            Kind::Lesser => self.lesser(),
            Kind::RefreshOverRequestDriven => self.refresh(0, self.requests()?),
            Kind::RefreshOverJobDriven => self.refresh(0, self.jobs()?),
            Kind::RefreshOverLesser => self.refresh(0, self.lesser()?),
            Kind::LesserOverRefreshes => {
                Ok(Box::new(Lesser(self.refresh(0, self.requests()?)?, self.refresh(1, self.jobs()?)?)))
            }
            Kind::RefreshOverRefresh => self.refresh(1, self.refresh(0, self.lesser()?)?),
        }
    }

    /// A pile for a plan with so many cores, most often with settings in range. Refreshes take up at most half of the
    /// time each, since the steps to a fixed point would else be too many to wait for.
    pub fn random(random: &mut Random, cores: usize) -> Pile {
        let mut pile = Pile { kind: random.pick(&KINDS), ..Pile::station(cores) };
        if random.once_in(2) {
            let ends = [0, 1, 48_750, 99_999, 100_000];
            let mut setting = || match random.once_in(2) {
                true => random.pick(&ends),
                false => random.between(0, 100_000) as u64,
            };
            (pile.l, pile.conflict, pile.reorder) = (setting(), setting(), setting());
            pile.refreshes = [Pile::refreshes(random), Pile::refreshes(random)];
        }
        if random.once_in(12) {
            // more or fewer cores than the plan has
            pile.cores = random.between(1, 4) as u64;
        }
        for _ in 0..2 {
            if random.once_in(10) {
                pile.out_of_range(random);
            }
        }
        pile
    }

    fn refreshes(random: &mut Random) -> (u64, u64) {
        random.pick(&[
            (1_000_000, 0),
            (1_000_000, 1),
            (1_000_000, 300_000),
            (7_800_000, 350_000),
            (10_000_000, 1_000_000),
            (10_000_000_000, 1_000_000),
            (9_999_999_999, 999_999),
        ])
    }

    /// One setting gets a number out of its range.
    fn out_of_range(&mut self, random: &mut Random) {
        let far = u64::MAX;
        match random.below(8) {
            0 => self.cores = random.pick(&[0, 5, far]),
            1 => self.l = random.pick(&[100_001, far]),
            2 => self.conflict = random.pick(&[100_001, far]),
            3 => self.reorder = random.pick(&[100_001, far]),
            4 => self.refreshes[0].0 = random.pick(&[0, 999_999, 10_000_000_001, far]),
            5 => self.refreshes[0].1 = random.pick(&[1_000_001, far]),
            6 => self.refreshes[1].0 = random.pick(&[0, 999_999, 10_000_000_001, far]),
            _ => self.refreshes[1].1 = random.pick(&[1_000_001, far]),
        }
    }
}
