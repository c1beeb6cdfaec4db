//! The search: the walk over sets of places, with its own stack.

use crate::file::BREAKER;
use crate::mistakes::Mistake::*;
use crate::network::{end_at, Network};
use std::collections::HashMap;

#[derive(Clone, PartialEq, Eq, Debug)]
pub struct Answer {
    pub finished: bool,
    /// Place numbers from 1, rising.
    pub members: Vec<usize>,
    pub total: u64,
    pub visits: u64,
}

/// What totals and the series rule need of a network, when breakers are added only at its places.
///
/// Places get bits by their distance from the HV station, so of several places between a line and its breaker the one met
/// first has the highest bit.
struct Reduced {
    bits: Vec<u64>,
    /// Customers behind the place of each bit.
    behind: Vec<u64>,
    /// The total of lines with no place before their breaker.
    fixed: u64,
    /// For lines with the same places before their breaker: those places, the lines' weights, the customers behind the breaker.
    groups: Vec<(u64, u64, u64)>,
    /// For paths that could break the series rule: the places on it, and how many of these are free to get a breaker.
    room: Vec<(u64, u32)>,
}

impl Reduced {
    fn of(network: &Network) -> Reduced {
        let file = &network.file;
        let mut order: Vec<usize> = (0..file.places.len()).collect();
        order.sort_by_key(|&p| network.line_paths[file.places[p].line].len() + usize::from(network.is_far(p)));
        let mut bits = vec![0; file.places.len()];
        let mut behind = vec![0; file.places.len()];
        let mut bit_of_end = HashMap::new();
        for (bit, &p) in order.iter().enumerate() {
            let end = end_at(file.places[p].line, file.places[p].end);
            bits[p] = 1 << bit;
            behind[bit] = network.behind[end];
            bit_of_end.insert(end, 1u64 << bit);
        }
        let mut fixed = 0;
        let mut groups: HashMap<(u64, u64), u64> = HashMap::new();
        for (l, line) in file.lines.iter().enumerate() {
            let mut before = 0;
            let mut cut_off = 0;
            for &end in &network.line_paths[l] {
                if file.lines[end / 2].states[end % 2] == BREAKER {
                    cut_off = network.behind[end];
                    break;
                }
                before |= bit_of_end.get(&end).copied().unwrap_or(0);
            }
            if before == 0 {
                fixed += line.weight * cut_off;
            } else {
                *groups.entry((before, cut_off)).or_insert(0) += line.weight;
            }
        }
        let mut most: HashMap<u64, u64> = HashMap::new();
        for path in network.series_paths() {
            let counted = path.iter().filter(|&&e| !network.out_of_series(e));
            let (mut on_path, mut breakers) = (0, 0);
            for &end in counted {
                on_path |= bit_of_end.get(&end).copied().unwrap_or(0);
                breakers += u64::from(file.lines[end / 2].states[end % 2] == BREAKER);
            }
            let entry = most.entry(on_path).or_insert(0);
            *entry = (*entry).max(breakers);
        }
        let room = most
            .into_iter()
            .filter(|(on_path, breakers)| u64::from(on_path.count_ones()) + breakers > file.series)
            .map(|(on_path, breakers)| (on_path, (file.series - breakers) as u32))
            .collect();
        let groups = groups.into_iter().map(|((before, cut_off), weight)| (before, weight, cut_off)).collect();
        Reduced { bits, behind, fixed, groups, room }
    }

    fn total(&self, set: u64) -> u64 {
        let mut total = self.fixed;
        for &(before, weight, cut_off) in &self.groups {
            let met = set & before;
            total += weight * if met == 0 { cut_off } else { self.behind[63 - met.leading_zeros() as usize] };
        }
        total
    }

    fn within_series(&self, set: u64) -> bool {
        self.room.iter().all(|&(on_path, room)| (set & on_path).count_ones() <= room)
    }
}

/// A set on the stack, its sums, and the place that it is to be extended by next.
#[derive(Clone, Copy)]
struct Open {
    bits: u64,
    total: i64,
    cost: u64,
    hours: u64,
    next: usize,
}

/// The search of an accepted file.
pub fn search(network: &Network) -> Answer {
    search_within(network, network.file.visits)
}

/// The search with another limit of visits.
pub fn search_within(network: &Network, limit: u64) -> Answer {
    let wrong = network.wrong;
    let file = &network.file;
    let places = file.places.len();
    let reduced = Reduced::of(network);
    // Totals of sets are taken from the reduced network where no mistake changes how impact is worked out.
    let by_lines = matches!(wrong, Some(UpToNextBreaker | FarEndClears | NearIsEndOne | OwnEndNotMet));
    let by_series = wrong == Some(SeriesAnyPath);
    let adds = if wrong == Some(AddsBelow) { file.adds.saturating_sub(1) } else { file.adds };

    let exact_total = |members: &[usize], bits: u64| {
        let total = if by_lines { network.total_with(&network.ends_of(members)) } else { reduced.total(bits) };
        total as i64
    };
    let empty_total = exact_total(&[], 0);
    let savings: Vec<i64> = (0..places).map(|p| empty_total - exact_total(&[p], reduced.bits[p])).collect();
    let total_of = |members: &[usize], bits: u64| match wrong {
        Some(SavingsAdded) => empty_total - members.iter().map(|&p| savings[p]).sum::<i64>(),
        _ => exact_total(members, bits),
    };
    let allowed = |members: &[usize], set: &Open| {
        let money = match wrong {
            Some(MoneyIgnored) => true,
            Some(MoneyBelow) => set.cost < file.money || set.cost == 0,
            _ => set.cost <= file.money,
        };
        let hours = wrong == Some(HoursIgnored) || set.hours <= file.hours;
        let series = match wrong {
            Some(SeriesIgnored) => true,
            _ if by_series => network.within_series(&network.ends_of(members)),
            _ => reduced.within_series(set.bits),
        };
        money && hours && series
    };
    let with = |set: &Open, q: usize| Open {
        bits: set.bits | reduced.bits[q],
        total: 0,
        cost: set.cost + file.places[q].cost,
        hours: set.hours + file.places[q].hours,
        next: q + 1,
    };
    let nothing = Open { bits: 0, total: empty_total, cost: 0, hours: 0, next: 0 };

    // The sum of the r largest savings among places q and later.
    let largest_from = |q: usize| -> Vec<i64> {
        let from = match wrong {
            Some(SavingsAfterQ) => q + 1,
            Some(SavingsOfAll) => 0,
            _ => q,
        };
        let counts = |p: &usize| wrong != Some(SavingsOfAllowed) || allowed(&[*p], &with(&nothing, *p));
        let mut later: Vec<i64> = (from..places).filter(counts).map(|p| savings[p]).collect();
        later.sort_unstable_by(|a, b| b.cmp(a));
        (0..=places).map(|r| later.iter().take(r).sum()).collect()
    };
    let largest: Vec<Vec<i64>> = (0..places).map(largest_from).collect();

    if wrong == Some(Greedy) {
        return greedy(network, adds, &allowed, &total_of, &with, nothing);
    }

    let mut members: Vec<usize> = Vec::new();
    let mut stack = vec![nothing];
    let mut count = u64::from(wrong != Some(EmptyNotCounted));
    let mut best: Vec<usize> = Vec::new();
    let mut best_total = empty_total;
    let mut finished = true;
    while let Some(&set) = stack.last() {
        let q = set.next;
        if members.len() >= adds || q >= places || {
            let r = match wrong {
                Some(OneSavingMore) => adds - members.len() + 1,
                Some(OneSavingFewer) => adds - members.len() - 1,
                Some(AddsForR) => adds,
                _ => adds - members.len(),
            };
            let mut bound = set.total - largest[q][r.min(places)];
            if wrong == Some(BoundNotNegative) {
                bound = bound.max(0);
            }
            if wrong == Some(CutAboveOnly) {
                bound > best_total
            } else {
                bound >= best_total
            }
        } {
            stack.pop();
            members.pop();
            continue;
        }
        if let Some(top) = stack.last_mut() {
            top.next = q + 1;
        }
        if wrong == Some(FarPlacesDropped) && network.is_far(q) {
            continue;
        }
        members.push(q);
        let mut larger = with(&set, q);
        if wrong == Some(SpentUnallowed) && count == limit {
            finished = false;
            break;
        }
        if !allowed(&members, &larger) {
            members.pop();
            continue;
        }
        if wrong == Some(CountBeforeLimit) {
            count += 1;
            if count > limit {
                finished = false;
                break;
            }
            count -= 1;
        }
        if count == limit {
            finished = false;
            break;
        }
        count += 1;
        larger.total = total_of(&members, larger.bits);
        let better = match wrong {
            Some(TiesReplaced) => larger.total <= best_total,
            Some(ShorterTies) => larger.total < best_total || larger.total == best_total && members.len() < best.len(),
            _ => larger.total < best_total,
        };
        if better {
            best_total = larger.total;
            best = members.clone();
        }
        if wrong == Some(SpentAtLimit) && count == limit {
            finished = false;
            break;
        }
        stack.push(larger);
    }
    if wrong == Some(EmptyWhenSpent) && !finished {
        best = Vec::new();
        best_total = empty_total;
    }
    let members = best.iter().map(|p| p + 1).collect();
    Answer { finished, members, total: best_total.max(0) as u64, visits: count }
}

/// The mistake of taking the largest saving each time.
fn greedy(
    network: &Network,
    adds: usize,
    allowed: &dyn Fn(&[usize], &Open) -> bool,
    total_of: &dyn Fn(&[usize], u64) -> i64,
    with: &dyn Fn(&Open, usize) -> Open,
    nothing: Open,
) -> Answer {
    let mut set = nothing;
    let mut members: Vec<usize> = Vec::new();
    let mut visits = 1;
    while members.len() < adds {
        let mut best: Option<(Open, Vec<usize>)> = None;
        for q in (0..network.file.places.len()).filter(|q| !members.contains(q)) {
            let mut more = members.clone();
            more.push(q);
            more.sort_unstable();
            let mut larger = with(&set, q);
            if allowed(&more, &larger) {
                visits += 1;
                larger.total = total_of(&more, larger.bits);
                if larger.total < best.as_ref().map_or(set.total, |b| b.0.total) {
                    best = Some((larger, more));
                }
            }
        }
        let Some((larger, more)) = best else { break };
        (set, members) = (larger, more);
    }
    Answer { finished: true, members: members.iter().map(|p| p + 1).collect(), total: set.total as u64, visits }
}
