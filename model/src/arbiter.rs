//! Arbiters: how long the requests of a task wait at most.

use crate::refusal::{refuse, Refusal, SETTING};
use std::collections::BTreeSet;

pub const CEILING: u128 = 100_000_000_000_000;
pub const MOST_ASKED_TIME: u128 = 10_000_000_000_000;
pub const MOST_ASKED_COUNT: u128 = 1_000_000_000_000;

/// t divided by period, rounded up.
pub fn jobs(t: u128, period: u128) -> u128 {
    t.div_ceil(period)
}

/// Which of the pairs of cores share, the smaller number first in each pair.
#[derive(Clone, Debug, Default, PartialEq, Eq)]
pub struct Sharing(pub BTreeSet<(usize, usize)>);

impl Sharing {
    pub fn of(pairs: &[(usize, usize)]) -> Sharing {
        let mut sharing = Sharing::default();
        for &(p, q) in pairs {
            sharing.add(p, q);
        }
        sharing
    }

    pub fn add(&mut self, p: usize, q: usize) {
        assert!(p != q);
        self.0.insert((p.min(q), p.max(q)));
    }

    pub fn shares(&self, p: usize, q: usize) -> bool {
        self.0.contains(&(p.min(q), p.max(q)))
    }
}

#[derive(Clone, Debug)]
pub struct Question {
    pub core: usize,
    pub t: u128,
    pub own: u128,
    pub others: [u128; 4],
    pub sharing: Sharing,
}

pub trait Arbiter {
    /// The bound before the cut, for a question within the limits of time and counts.
    fn raw(&self, question: &Question) -> u128;

    /// The answer.
    fn bound(&self, question: &Question) -> u128 {
        if question.t > MOST_ASKED_TIME
            || question.own > MOST_ASKED_COUNT
            || question.others.iter().any(|&count| count > MOST_ASKED_COUNT)
        {
            return CEILING;
        }
        self.raw(question).min(CEILING)
    }
}

pub struct RequestDriven {
    n: usize,
    l: u128,
    conflict: u128,
    reorder: u128,
}

pub struct JobDriven {
    n: usize,
    l: u128,
    conflict: u128,
}

pub struct Lesser(pub Box<dyn Arbiter>, pub Box<dyn Arbiter>);

pub struct Refresh {
    interval: u128,
    length: u128,
    below: Box<dyn Arbiter>,
}

const MOST_WAIT: u128 = 100_000;

/// Refuses at the position of the first setting that is out of range.
fn settings(ranges: &[(u128, std::ops::RangeInclusive<u128>)]) -> Result<(), Refusal> {
    match ranges.iter().position(|(value, range)| !range.contains(value)) {
        Some(position) => refuse(SETTING, position),
        None => Ok(()),
    }
}

impl RequestDriven {
    pub fn new(n: usize, l: u128, conflict: u128, reorder: u128) -> Result<RequestDriven, Refusal> {
        settings(&[(n as u128, 1..=4), (l, 0..=MOST_WAIT), (conflict, 0..=MOST_WAIT), (reorder, 0..=MOST_WAIT)])?;
        Ok(RequestDriven { n, l, conflict, reorder })
    }

    fn inter(&self, p: usize, sharing: &Sharing) -> u128 {
        (0..self.n).filter(|&q| q != p && !sharing.shares(p, q)).map(|_| self.l).sum()
    }
}

impl Arbiter for RequestDriven {
    fn raw(&self, question: &Question) -> u128 {
        let (p, sharing) = (question.core, &question.sharing);
        if p >= self.n {
            return CEILING;
        }
        let within: u128 = (0..self.n)
            .filter(|&q| q != p && sharing.shares(p, q))
            .map(|q| self.conflict + self.inter(q, sharing))
            .sum();
        question.own * (self.inter(p, sharing) + self.reorder + within)
    }
}

impl JobDriven {
    pub fn new(n: usize, l: u128, conflict: u128) -> Result<JobDriven, Refusal> {
        settings(&[(n as u128, 1..=4), (l, 0..=MOST_WAIT), (conflict, 0..=MOST_WAIT)])?;
        Ok(JobDriven { n, l, conflict })
    }

    fn between(&self, p: usize, question: &Question) -> u128 {
        (0..self.n).filter(|&q| q != p && !question.sharing.shares(p, q)).map(|q| question.others[q] * self.l).sum()
    }
}

impl Arbiter for JobDriven {
    fn raw(&self, question: &Question) -> u128 {
        let p = question.core;
        if p >= self.n {
            return CEILING;
        }
        let within: u128 = (0..self.n)
            .filter(|&q| q != p && question.sharing.shares(p, q))
            .map(|q| question.others[q] * self.conflict + self.between(q, question))
            .sum();
        self.between(p, question) + within
    }
}

impl Arbiter for Lesser {
    fn raw(&self, question: &Question) -> u128 {
        self.0.bound(question).min(self.1.bound(question))
    }
}

impl Refresh {
    pub fn new(interval: u128, length: u128, below: Box<dyn Arbiter>) -> Result<Refresh, Refusal> {
        settings(&[(interval, 1_000_000..=10_000_000_000), (length, 0..=1_000_000)])?;
        Ok(Refresh { interval, length, below })
    }
}

impl Arbiter for Refresh {
    fn raw(&self, question: &Question) -> u128 {
        self.below.bound(question) + jobs(question.t, self.interval) * self.length
    }
}

/// An arbiter that answers the same number to every question, for trying plans.
pub struct Constant(pub u128);

impl Arbiter for Constant {
    fn raw(&self, _: &Question) -> u128 {
        self.0
    }
}

/// The pile of our station, for a computer with n cores: the lesser of request-driven and job-driven.
pub fn station(n: usize) -> Lesser {
    let (l, conflict, reorder) = (48_750, 60_000, 5_000);
    Lesser(
        Box::new(RequestDriven::new(n, l, conflict, reorder).unwrap()),
        Box::new(JobDriven::new(n, l, conflict).unwrap()),
    )
}

/// What stands at the bottom of a pile.
#[derive(Clone, Copy, Debug, PartialEq, Eq)]
pub enum Bottom {
    RequestDriven,
    JobDriven,
    /// the lesser of both
    Lesser,
}

/// A pile told by its settings: what stands at the bottom, and interval and length of refresh, if it is there.
#[derive(Clone, Copy, Debug, PartialEq, Eq)]
pub struct Pile {
    pub bottom: Bottom,
    pub l: u128,
    pub conflict: u128,
    pub reorder: u128,
    pub refresh: Option<(u128, u128)>,
}

impl Pile {
    pub const STATION: Pile =
        Pile { bottom: Bottom::Lesser, l: 48_750, conflict: 60_000, reorder: 5_000, refresh: None };

    /// The six kinds with the settings of our station: each bottom, without refresh and with it.
    pub fn kinds() -> Vec<Pile> {
        let mut all = vec![];
        for bottom in [Bottom::RequestDriven, Bottom::JobDriven, Bottom::Lesser] {
            for refresh in [None, Some((7_800_000, 350_000))] {
                all.push(Pile { bottom, refresh, ..Pile::STATION });
            }
        }
        all
    }

    /// The arbiter for a computer with n cores, or the refusal of the first setting that is out of range, lowest
    /// arbiter first.
    pub fn arbiter(&self, n: usize) -> Result<Box<dyn Arbiter>, Refusal> {
        let Pile { bottom, l, conflict, reorder, refresh } = *self;
        let below: Box<dyn Arbiter> = match bottom {
            Bottom::RequestDriven => Box::new(RequestDriven::new(n, l, conflict, reorder)?),
            Bottom::JobDriven => Box::new(JobDriven::new(n, l, conflict)?),
            Bottom::Lesser => Box::new(Lesser(
                Box::new(RequestDriven::new(n, l, conflict, reorder)?),
                Box::new(JobDriven::new(n, l, conflict)?),
            )),
        };
        match refresh {
            None => Ok(below),
            Some((interval, length)) => Ok(Box::new(Refresh::new(interval, length, below)?)),
        }
    }
}

#[cfg(test)]
mod tests {
    use super::*;

    fn ask(core: usize, own: u128, others: [u128; 4], pairs: &[(usize, usize)]) -> Question {
        Question { core, t: 1, own, others, sharing: Sharing::of(pairs) }
    }

    fn request_driven(n: usize) -> RequestDriven {
        RequestDriven::new(n, 48_750, 60_000, 5_000).unwrap()
    }

    fn job_driven(n: usize) -> JobDriven {
        JobDriven::new(n, 48_750, 60_000).unwrap()
    }

    #[test]
    fn jobs_round_up() {
        assert_eq!([jobs(0, 10), jobs(1, 10), jobs(10, 10), jobs(11, 10)], [0, 1, 1, 2]);
    }

    #[test]
    fn waits_of_three_cores() {
        let one = |pairs: &[(usize, usize)]| request_driven(3).bound(&ask(0, 1, [0; 4], pairs));
        assert_eq!(one(&[]), 102_500);
        assert_eq!(one(&[(0, 1), (1, 2)]), 113_750);
        assert_eq!(one(&[(0, 1)]), 162_500);
        // a pair with a core that is not there changes nothing
        assert_eq!(one(&[(0, 1), (0, 3)]), 162_500);
    }

    #[test]
    fn job_driven_of_three_cores() {
        assert_eq!(job_driven(3).bound(&ask(0, 7, [0, 100, 40, 0], &[(0, 1)])), 9_900_000);
        // neither the count of the core itself nor that of a missing core counts
        assert_eq!(job_driven(3).bound(&ask(0, 7, [9, 100, 40, 9], &[(0, 1)])), 9_900_000);
    }

    #[test]
    fn a_core_that_is_not_there_gets_the_ceiling() {
        assert_eq!(request_driven(3).bound(&ask(3, 0, [0; 4], &[])), CEILING);
        assert_eq!(job_driven(1).bound(&ask(1, 0, [0; 4], &[])), CEILING);
        assert_eq!(request_driven(4).bound(&ask(3, 0, [0; 4], &[])), 0);
    }

    #[test]
    fn large_questions_get_the_ceiling() {
        let free = || Box::new(RequestDriven::new(4, 0, 0, 0).unwrap());
        let pile = Refresh::new(1_000_000, 0, free()).unwrap();
        let mut question = ask(0, MOST_ASKED_COUNT, [MOST_ASKED_COUNT; 4], &[]);
        question.t = MOST_ASKED_TIME;
        assert_eq!(pile.bound(&question), 0);
        question.t += 1;
        assert_eq!(pile.bound(&question), CEILING);
        question.t -= 1;
        question.own += 1;
        assert_eq!(pile.bound(&question), CEILING);
        question.own -= 1;
        question.others[3] += 1;
        assert_eq!(pile.bound(&question), CEILING);
        // a result above the ceiling is cut
        let dear = RequestDriven::new(4, 100_000, 100_000, 100_000).unwrap();
        assert_eq!(dear.bound(&ask(0, 250_000_000, [0; 4], &[])), CEILING);
        assert_eq!(dear.bound(&ask(0, 249_999_999, [0; 4], &[])), 99_999_999_600_000);
    }

    #[test]
    fn lesser_takes_the_smaller() {
        let both = Lesser(Box::new(Constant(5)), Box::new(Constant(3)));
        assert_eq!(both.bound(&ask(0, 0, [0; 4], &[])), 3);
        let pile = station(2);
        assert_eq!(pile.bound(&ask(0, 1_000, [0, 2_000, 0, 0], &[])), 53_750_000);
        assert_eq!(pile.bound(&ask(1, 2_000, [1_000, 0, 0, 0], &[])), 48_750_000);
    }

    #[test]
    fn refresh_counts_intervals_begun() {
        let pile = Refresh::new(7_800_000, 350_000, Box::new(Constant(1))).unwrap();
        let mut question = ask(0, 0, [0; 4], &[]);
        question.t = 0;
        assert_eq!(pile.bound(&question), 1);
        question.t = 7_800_000;
        assert_eq!(pile.bound(&question), 350_001);
        question.t = 7_800_001;
        assert_eq!(pile.bound(&question), 700_001);
        let high = Refresh::new(7_800_000, 350_000, Box::new(Constant(CEILING))).unwrap();
        assert_eq!(high.bound(&question), CEILING);
    }

    #[test]
    fn piles_by_their_settings() {
        let mut question = ask(0, 1_000, [0, 2_000, 0, 0], &[]);
        question.t = 7_800_001;
        let answers: Vec<u128> = Pile::kinds().iter().map(|pile| pile.arbiter(2).unwrap().bound(&question)).collect();
        assert_eq!(answers, [53_750_000, 54_450_000, 97_500_000, 98_200_000, 53_750_000, 54_450_000]);
        assert_eq!(Pile::STATION.arbiter(2).unwrap().bound(&question), station(2).bound(&question));
        let wrong = Pile { reorder: 100_001, refresh: Some((0, 0)), ..Pile::STATION };
        let at = |pile: Pile| pile.arbiter(4).err().map(|refusal| refusal.tells);
        assert_eq!(at(wrong), Some(3));
        assert_eq!(at(Pile { bottom: Bottom::JobDriven, ..wrong }), Some(0));
        assert_eq!(at(Pile { bottom: Bottom::JobDriven, refresh: None, ..wrong }), None);
    }

    #[test]
    fn settings_out_of_range() {
        let at = |position| Some(Refusal { number: SETTING, tells: position });
        assert_eq!(RequestDriven::new(0, 0, 0, 0).err(), at(0));
        assert_eq!(RequestDriven::new(5, 100_001, 0, 0).err(), at(0));
        assert_eq!(RequestDriven::new(4, 100_001, 0, 100_001).err(), at(1));
        assert_eq!(RequestDriven::new(4, 100_000, 100_001, 0).err(), at(2));
        assert_eq!(RequestDriven::new(4, 100_000, 100_000, 100_001).err(), at(3));
        assert_eq!(RequestDriven::new(1, 100_000, 100_000, 100_000).err(), None);
        assert_eq!(JobDriven::new(9, 0, 0).err(), at(0));
        assert_eq!(JobDriven::new(1, 100_001, 0).err(), at(1));
        assert_eq!(JobDriven::new(1, 0, 100_001).err(), at(2));
        let refresh = |interval, length| Refresh::new(interval, length, Box::new(Constant(0))).err();
        assert_eq!(refresh(999_999, 1_000_001), at(0));
        assert_eq!(refresh(10_000_000_001, 0), at(0));
        assert_eq!(refresh(1_000_000, 1_000_001), at(1));
        assert_eq!(refresh(1_000_000, 0), None);
        assert_eq!(refresh(10_000_000_000, 1_000_000), None);
    }

    /// All subsets of the six pairs.
    fn patterns() -> Vec<Sharing> {
        let pairs = [(0, 1), (0, 2), (0, 3), (1, 2), (1, 3), (2, 3)];
        (0..64u32)
            .map(|set| Sharing(pairs.iter().enumerate().filter(|(i, _)| set >> i & 1 == 1).map(|(_, &p)| p).collect()))
            .collect()
    }

    #[test]
    fn answers_rise() {
        let pile = |n| {
            let lesser = Box::new(station(n));
            Refresh::new(1_000_000, 1_000, lesser).unwrap()
        };
        let counts = [0, 1, 1_000, MOST_ASKED_COUNT, MOST_ASKED_COUNT + 1];
        for n in 1..=4 {
            let pile = pile(n);
            for sharing in patterns() {
                for core in 0..4 {
                    for (a, b) in counts.iter().zip(&counts[1..]) {
                        for bigger in 0..6 {
                            let mut question =
                                Question { core, t: 1_000_000, own: *a, others: [*a; 4], sharing: sharing.clone() };
                            let before = pile.bound(&question);
                            match bigger {
                                0 => question.t += 5_000_000,
                                1 => question.own = *b,
                                _ => question.others[bigger - 2] = *b,
                            }
                            assert!(before <= pile.bound(&question));
                        }
                    }
                }
            }
        }
    }
}
