//! Random network files that are accepted.

use crate::file::{BREAKER, OPEN, PLAIN};
use crate::network::Network;
use crate::random::Random;
use crate::walk;

/// The largest bounds of a head.
pub const MOST_MONEY: u64 = 100_000_000;
pub const MOST_HOURS: u64 = 100_000;
pub const MOST_VISITS: u64 = 1_000_000_000;

/// A file's numbers, record by record.
#[derive(Clone, Default)]
pub struct Draft {
    /// minutes, series, adds, money, hours, visits
    pub head: [u64; 6],
    /// role, customers
    pub stations: Vec<[u64; 2]>,
    /// weight, from, to, state1, state2
    pub lines: Vec<[u64; 5]>,
    /// line, end, cost, hours
    pub places: Vec<[u64; 4]>,
}

pub const MINUTES: usize = 0;
pub const SERIES: usize = 1;
pub const ADDS: usize = 2;
pub const MONEY: usize = 3;
pub const HOURS: usize = 4;
pub const VISITS: usize = 5;

impl Draft {
    pub fn bytes(&self) -> Vec<u8> {
        let mut text = String::new();
        let mut record = |kind: char, numbers: &[u64]| {
            text.push(kind);
            for n in numbers {
                text.push(',');
                text.push_str(&n.to_string());
            }
            text.push('\n');
        };
        let counts = [self.stations.len() as u64, self.lines.len() as u64];
        record('N', &[&counts[..], &self.head[..]].concat());
        self.stations.iter().for_each(|s| record('S', s));
        self.lines.iter().for_each(|l| record('L', l));
        self.places.iter().for_each(|p| record('P', p));
        text.into_bytes()
    }

    pub fn is_hv(&self, station: u64) -> bool {
        self.stations.get((station as usize).wrapping_sub(1)).is_some_and(|s| s[0] == 1)
    }

    /// Whether a place is on a plain end.
    pub fn on_plain(&self, place: &[u64; 4]) -> bool {
        let line = self.lines.get((place[0] as usize).wrapping_sub(1));
        (1..=2).contains(&place[1]) && line.is_some_and(|l| l[place[1] as usize + 2] == PLAIN)
    }
}

/// About how large a network is to be.
#[derive(Clone, Copy, PartialEq, Eq, Debug)]
pub enum Size {
    Small,
    Middle,
    Large,
    Full,
}

/// Numbers of one field: all 0, all equal, few different (so that sums tie), any, or near the largest.
fn numbers(r: &mut Random, count: usize, largest: u64) -> Vec<u64> {
    let way = r.below(20);
    let common = r.between(0, largest);
    (0..count)
        .map(|_| match way {
            0 => 0,
            1 | 2 => common,
            3..=5 => r.between(0, 2),
            6..=11 => r.between(0, 9),
            12..=16 => r.between(0, largest),
            17 | 18 => r.pick(&[0, 0, 1, largest]),
            _ => largest - r.between(0, 1),
        })
        .collect()
}

/// For each MV station, as numbers from `hv` on, the station that feeds it.
fn feeders(r: &mut Random, stations: usize, hv: usize) -> Vec<usize> {
    let shape = r.below(8);
    let reach = 1 + r.below(4);
    let main = hv + 1 + r.below(stations);
    (hv..stations)
        .map(|s| match shape {
            // Chains, one from each HV station
            0 => s - hv,
            // Stars
            1 => r.below(hv),
            // Bushes: each near the one before
            2 => s - 1 - r.below(reach.min(s)),
            // A feeder with laterals
            3 if s == hv => 0,
            3 if s < main || !r.once_in(3) => s - 1,
            3 => r.below(main.min(s)),
            // Two from each
            4 => (s - hv) / 2,
            // Deep, with branches
            5 if !r.once_in(6) => s - 1,
            // Stars of stars
            6 if r.once_in(4) => r.below(hv),
            6 => r.below(s.min(hv + 4)),
            // Random trees
            _ => r.below(s),
        })
        .collect()
}

/// An accepted network. Its limit of visits lets the search end soon. Most networks have a search of several visits.
pub fn network(r: &mut Random, size: Size) -> Draft {
    for _ in 0..r.below(6) {
        let mut draft = radial(r, size);
        if limit_visits(r, &mut draft, size) > 3 {
            return draft;
        }
    }
    let mut draft = radial(r, size);
    limit_visits(r, &mut draft, size);
    draft
}

/// A network without its limit of visits.
fn radial(r: &mut Random, size: Size) -> Draft {
    let (stations, most_lines) = match size {
        Size::Small => (1 + r.below(8), 12),
        Size::Middle => (2 + r.below(40), 70),
        Size::Large => (40 + r.below(473), 768),
        Size::Full => (512, 768),
    };
    let hv = match r.below(8) {
        0 => 1 + r.below(stations.min(5)),
        1..=3 => stations.min(2),
        _ => 1,
    };
    let series = r.between(1, 8);
    let breakers_near = r.pick(&[0, 0, 0, 3, 6, 20]);
    let breakers_far = r.pick(&[0, 0, 0, 0, 4, 12]);
    let is_breaker = |r: &mut Random, rate: usize| rate > 0 && r.once_in(rate);

    // Stations from the HV stations outwards, each with the breakers on its path.
    let mut passed = vec![0; stations];
    let mut lines = Vec::new();
    let feeder_of = feeders(r, stations, hv);
    for (i, &feeder) in feeder_of.iter().enumerate() {
        let station = hv + i;
        let mut count = passed[feeder];
        let mut state = |r: &mut Random, rate: usize, must: bool| {
            if must || count < series && is_breaker(r, rate) {
                count += 1;
                return BREAKER;
            }
            PLAIN
        };
        let near = state(r, breakers_near, feeder < hv);
        let far = state(r, breakers_far, false);
        passed[station] = count;
        lines.push([feeder as u64, station as u64, near, far]);
    }
    // Lines with one open end: to any station, to their own, several to the same.
    let spare = most_lines - lines.len().min(most_lines);
    let hanging = match (size, r.below(4)) {
        (Size::Full, _) => spare,
        (_, 0) => 0,
        (_, 1) => r.below(spare + 1),
        _ => r.below(spare.min(3) + 1),
    };
    for i in 0..hanging {
        let (near, far) = match lines.last() {
            Some(last) if i > 0 && r.once_in(4) => (last[0] as usize, last[1]),
            _ => (r.below(stations), if r.once_in(8) { stations as u64 } else { r.below(stations) as u64 }),
        };
        let far = if far == stations as u64 { near as u64 } else { far };
        let breaker = near < hv || passed[near] < series && is_breaker(r, breakers_near.max(breakers_far));
        lines.push([near as u64, far, if breaker { BREAKER } else { PLAIN }, OPEN]);
    }
    let longest = {
        let on = |l: &[u64; 4]| passed[l[0] as usize] + u64::from(l[2] == BREAKER) + u64::from(l[3] == BREAKER);
        lines.iter().map(on).max().unwrap_or(0)
    };

    // Numbers of stations and lines, and which end is end 1
    let mut names: Vec<u64> = (1..=stations as u64).collect();
    if !r.once_in(3) {
        r.shuffle(&mut names);
    }
    if !r.once_in(3) {
        r.shuffle(&mut lines);
    }
    let turning = r.below(3);
    let mut weights = numbers(r, lines.len(), 1_000_000);
    let mut customers = numbers(r, stations, 20_000);
    if hv < stations && r.once_in(6) {
        // All failures behind one station, all customers before it: a breaker there makes the total nought.
        let mut behind = vec![false; stations];
        behind[hv + r.below(stations - hv)] = true;
        for s in hv..stations {
            behind[s] = behind[s] || behind[feeder_of[s - hv]];
            customers[s] = if behind[s] { 0 } else { customers[s].max(1) };
        }
        for (weight, line) in weights.iter_mut().zip(&lines) {
            *weight = if behind[line[0] as usize] || line[3] != OPEN && behind[line[1] as usize] { (*weight).max(1) } else { 0 };
        }
    }
    let mut draft = Draft { stations: vec![[0; 2]; stations], ..Draft::default() };
    for s in 0..stations {
        draft.stations[names[s] as usize - 1] = if s < hv { [1, 0] } else { [0, customers[s]] };
    }
    for (l, weight) in lines.iter().zip(weights) {
        let (from, to) = (names[l[0] as usize], names[l[1] as usize]);
        let turned = turning == 1 || turning == 2 && r.once_in(2);
        draft.lines.push(if turned { [weight, to, from, l[3], l[2]] } else { [weight, from, to, l[2], l[3]] });
    }

    places(r, &mut draft, size);
    let room = r.pick(&[0, 1, 1, 2, 2, 3, 8]);
    draft.head[SERIES] = (longest + room).clamp(1, 8);
    draft.head[MINUTES] = r.pick(&[0, 1, 90, 1_440, 777]);
    draft
}

/// Places, and the bounds on sets of them.
fn places(r: &mut Random, draft: &mut Draft, size: Size) {
    let mut plain = Vec::new();
    for (l, line) in draft.lines.iter().enumerate() {
        for end in [1, 2] {
            if line[end as usize + 2] == PLAIN {
                plain.push([l as u64 + 1, end]);
            }
        }
    }
    let wanted = match (size, r.below(4)) {
        (Size::Full, _) => 64,
        (_, 0) => r.below(5),
        (Size::Small, _) => 2 + r.below(9),
        (Size::Middle, _) => 4 + r.below(24),
        (Size::Large, _) => 8 + r.below(57),
    };
    let mut chosen = plain;
    r.shuffle(&mut chosen);
    chosen.truncate(wanted);
    chosen.sort_unstable();
    let costs = numbers(r, chosen.len(), 1_000_000);
    let hours = numbers(r, chosen.len(), 1_000);
    draft.places = (0..chosen.len()).map(|p| [chosen[p][0], chosen[p][1], costs[p], hours[p]]).collect();

    draft.head[ADDS] = match r.below(6) {
        0 => r.between(0, 16),
        1 => 1,
        2 => 16,
        _ => r.between(2, 5),
    };
    for (bound, field, largest) in [(MONEY, 2, MOST_MONEY), (HOURS, 3, MOST_HOURS)] {
        // Some set's sum, or one less; or no bound; or any
        let mut members = draft.places.clone();
        r.shuffle(&mut members);
        members.truncate(1 + r.below(draft.head[ADDS] as usize + 2));
        let sum: u64 = members.iter().map(|p| p[field]).sum();
        draft.head[bound] = match r.below(16) {
            0..=2 => sum,
            3 => sum.saturating_sub(1),
            4 => sum + 1,
            5 => r.between(0, 2 * sum + 1),
            6 => 0,
            _ => largest,
        }
        .min(largest);
    }
}

/// A limit of visits, often just at what the walk needs. Gives the visits needed, as far as they were tried.
fn limit_visits(r: &mut Random, draft: &mut Draft, size: Size) -> u64 {
    let most = match (size, r.below(300)) {
        (_, 0) => 100_000,
        (_, 1..=20) => 20_000,
        (Size::Small | Size::Middle, _) => 5_000,
        _ => 2_000,
    };
    draft.head[VISITS] = most;
    let network = Network::read(&draft.bytes(), None).unwrap_or_else(|refusal| panic!("made a file with {refusal:?}"));
    let answer = walk::search(&network);
    let needed = answer.visits;
    draft.head[VISITS] = match r.below(10) {
        0 | 1 => r.between(1, needed),
        2 => (needed - 1).max(1),
        3 => needed,
        4 if answer.finished => needed + 1,
        5 if answer.finished => MOST_VISITS,
        _ if answer.finished => r.between(needed, 2 * needed),
        _ => most,
    };
    needed
}
