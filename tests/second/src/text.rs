//! The printed lines.

use crate::file::Refusal;
use crate::mistakes::Mistake::*;
use crate::mistakes::Wrong;
use crate::network::Network;
use crate::walk::{self, Answer};
use std::fmt::Write;

/// The report of an accepted file.
pub fn report(network: &Network) -> Vec<u8> {
    let file = &network.file;
    let wrong = network.wrong;
    let total = network.total();
    let mut answer = walk::search(network);
    if wrong == Some(ReportEmptyC) && !answer.finished {
        answer.members.clear();
        answer.total = total;
    }
    let places: Vec<usize> = answer.members.iter().map(|p| p - 1).collect();
    let shown = if wrong == Some(ImpactsAfter) { network.ends_of(&places) } else { Vec::new() };
    let mut text = String::new();
    let _ = writeln!(text, "A,{},{}", total, network.figure(total));
    for (l, line) in file.lines.iter().enumerate() {
        let impact = network.impact(l, &shown);
        let _ = writeln!(text, "F,{},{},{}", l + 1, impact, line.weight * impact);
    }
    let last = if wrong == Some(FileTotalInC) { total } else { answer.total };
    let _ = writeln!(text, "C,{},{},{},{}", u8::from(answer.finished), answer.visits, places.len(), last);
    for p in places {
        let line = if wrong == Some(PlaceInB) { p + 1 } else { file.places[p].line + 1 };
        let _ = writeln!(text, "B,{},{}", line, file.places[p].end + 1);
    }
    if wrong == Some(NoLastNewline) {
        text.pop();
    }
    text.into_bytes()
}

/// A letter and numbers.
fn row(letter: char, numbers: &[u64]) -> String {
    let mut row = letter.to_string();
    for n in numbers {
        let _ = write!(row, ",{n}");
    }
    row + "\n"
}

/// `check` of an accepted file.
pub fn accepted(wrong: Wrong) -> Vec<u8> {
    if wrong == Some(CheckSilent) {
        return Vec::new();
    }
    row('K', &[]).into_bytes()
}

/// `impact` of a line.
pub fn impact(line: u64, customers: u64, wrong: Wrong) -> Vec<u8> {
    if wrong == Some(ImpactWithoutLine) {
        return row('I', &[customers]).into_bytes();
    }
    row('I', &[line, customers]).into_bytes()
}

/// `total` of an accepted file.
pub fn total(network: &Network) -> Vec<u8> {
    let total = network.total();
    if network.wrong == Some(TotalWithoutFigure) {
        return row('A', &[total]).into_bytes();
    }
    row('A', &[total, network.figure(total)]).into_bytes()
}

/// `search` of an accepted file, by its answer.
pub fn plan(network: &Network, answer: &Answer) -> Vec<u8> {
    let mut text = String::new();
    if network.wrong == Some(SearchWithLines) {
        for (l, line) in network.file.lines.iter().enumerate() {
            let impact = network.impact(l, &[]);
            text += &row('F', &[l as u64 + 1, impact, line.weight * impact]);
        }
    }
    text += &row('C', &[u64::from(answer.finished), answer.visits, answer.members.len() as u64, answer.total]);
    if network.wrong == Some(SearchWithoutMembers) {
        return text.into_bytes();
    }
    for &member in &answer.members {
        let place = &network.file.places[member - 1];
        text += &row('B', &[place.line as u64 + 1, place.end as u64 + 1]);
    }
    text.into_bytes()
}

/// `segments` of an accepted file.
pub fn segments(network: &Network) -> Vec<u8> {
    let table = network.segments();
    let mut text = row('G', &[table.len() as u64]);
    if network.wrong == Some(SegmentsWithoutCount) {
        text.clear();
    }
    for [line, end, weights, customers, product] in table {
        text += &match network.wrong {
            Some(RowEndFirst) => row('T', &[end, line, weights, customers, product]),
            Some(RowWithoutProduct) => row('T', &[line, end, weights, customers]),
            _ => row('T', &[line, end, weights, customers, product]),
        };
    }
    text.into_bytes()
}

/// `ceiling` of two numbers.
pub fn sets(places: u64, additions: u64, sets: u64, wrong: Wrong) -> Vec<u8> {
    if wrong == Some(CeilingSwapped) {
        return row('M', &[additions, places, sets]).into_bytes();
    }
    row('M', &[places, additions, sets]).into_bytes()
}

/// What the program prints of a refused file or number.
pub fn refused(refusal: Refusal, wrong: Wrong) -> Vec<u8> {
    if wrong == Some(PrintedRecordFirst) {
        return row('X', &[refusal.record, refusal.number]).into_bytes();
    }
    row('X', &[refusal.number, refusal.record]).into_bytes()
}
