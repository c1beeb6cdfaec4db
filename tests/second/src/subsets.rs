//! The specification's third demand, what it asks of Search, by trying every subset of the places: the answered set is allowed
//! and has the answered total; a finished answer's total is the least of all allowed sets, and its set the first of these in
//! dictionary order that has it; the visits are within the limit, and an answer is finished where the limit is enough.

use crate::network::Network;
use crate::walk::{self, Answer};

/// How many allowed sets a network has, their least total, and the first of them in dictionary order that has it.
pub struct Allowed {
    pub count: u64,
    pub least: u64,
    pub first: Vec<usize>,
}

fn is_allowed(network: &Network, places: &[usize]) -> bool {
    let file = &network.file;
    places.len() <= file.adds
        && places.iter().map(|&p| file.places[p].cost).sum::<u64>() <= file.money
        && places.iter().map(|&p| file.places[p].hours).sum::<u64>() <= file.hours
        && network.within_series(&network.ends_of(places))
}

/// The steps that trying every subset takes, about.
pub fn effort(network: &Network) -> u64 {
    let ends: usize = network.station_paths.iter().chain(&network.line_paths).map(|p| p.len() + 1).sum();
    (ends as u64).saturating_mul(1u64.checked_shl(network.file.places.len() as u32).unwrap_or(u64::MAX))
}

pub fn allowed_sets(network: &Network) -> Allowed {
    let mut found: Option<(u64, Vec<usize>)> = None;
    let mut count = 0;
    for subset in 0u64..1 << network.file.places.len() {
        let places: Vec<usize> = (0..network.file.places.len()).filter(|p| subset >> p & 1 == 1).collect();
        if !is_allowed(network, &places) {
            continue;
        }
        count += 1;
        let this = (network.total_with(&network.ends_of(&places)), places);
        if found.as_ref().is_none_or(|best| this < *best) {
            found = Some(this);
        }
    }
    let (least, first) = found.unwrap_or_default();
    Allowed { count, least, first: first.iter().map(|p| p + 1).collect() }
}

/// What is wrong with an answer by the third demand. Where every subset was tried, `allowed` says what there is; else only the
/// answered set is looked at.
pub fn fault_of(network: &Network, answer: &Answer, allowed: Option<&Allowed>) -> Option<String> {
    let rising = answer.members.windows(2).all(|w| w[0] < w[1]);
    let listed = answer.members.iter().all(|&m| (1..=network.file.places.len()).contains(&m));
    if !rising || !listed {
        return Some("the members are no set of places, rising".into());
    }
    let places: Vec<usize> = answer.members.iter().map(|m| m - 1).collect();
    if !is_allowed(network, &places) {
        return Some("the set is not allowed".into());
    }
    let total = network.total_with(&network.ends_of(&places));
    if total != answer.total {
        return Some(format!("the set's total is {total}"));
    }
    if answer.visits > network.file.visits {
        return Some("more visits than the limit".into());
    }
    let allowed = allowed?;
    if answer.finished && answer.total != allowed.least {
        return Some(format!("the least total of all allowed sets is {}", allowed.least));
    }
    if answer.finished && answer.members != allowed.first {
        return Some(format!("the first best set in dictionary order is {:?}", allowed.first));
    }
    if answer.visits > allowed.count {
        return Some(format!("more visits than the {} allowed sets", allowed.count));
    }
    if !answer.finished && network.file.visits >= allowed.count {
        return Some(format!("spent, with a limit that is enough for the {} allowed sets", allowed.count));
    }
    let needed = walk::search_within(network, u64::MAX).visits;
    if answer.finished != (needed <= network.file.visits) {
        return Some(format!("the walk needs {needed} visits"));
    }
    None
}
