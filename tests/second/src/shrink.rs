//! Makes a file that shows a difference smaller, as long as the difference stays.

use std::time::{Duration, Instant};

/// The numbers of a record, if all its fields but the first are numbers.
fn numbers(record: &[u8]) -> Option<Vec<u64>> {
    let text = std::str::from_utf8(record).ok()?;
    text.split(',').skip(1).map(|f| f.parse().ok()).collect()
}

fn written(kind: u8, numbers: &[u64]) -> Vec<u8> {
    let mut record = vec![kind];
    for n in numbers {
        record.extend_from_slice(format!(",{n}").as_bytes());
    }
    record
}

fn joined(records: &[Vec<u8>], closed: bool) -> Vec<u8> {
    let mut bytes = records.join(&b"\n"[..]);
    if closed && !records.is_empty() {
        bytes.push(b'\n');
    }
    bytes
}

/// The records without record i; where that is a station or line, heads, lines and places are numbered anew.
fn without(records: &[Vec<u8>], i: usize) -> Option<Vec<Vec<u8>>> {
    let head = numbers(records.first()?).filter(|h| h.len() == 8)?;
    let (stations, lines) = (head[0] as usize, head[1] as usize);
    if i == 0 || i > stations + lines {
        return None;
    }
    let station = i <= stations;
    let gone = if station { i as u64 } else { (i - stations) as u64 };
    let mut kept = Vec::new();
    let mut gone_lines = Vec::new();
    for (at, record) in records.iter().enumerate() {
        let kind = *record.first()?;
        if at == 0 || at == i {
            if at == i && !station {
                gone_lines.push(gone);
            }
            continue;
        }
        let mut values = numbers(record)?;
        if station && kind == b'L' && values.len() == 5 {
            if values[1] == gone || values[2] == gone {
                gone_lines.push((at - stations) as u64);
                continue;
            }
            for v in &mut values[1..3] {
                *v -= u64::from(*v > gone);
            }
        }
        if kind == b'P' && !values.is_empty() {
            if gone_lines.contains(&values[0]) {
                continue;
            }
            values[0] -= gone_lines.iter().filter(|&&l| l < values[0]).count() as u64;
        }
        kept.push(written(kind, &values));
    }
    let mut values = head;
    values[0] -= u64::from(station);
    values[1] -= (gone_lines.len() as u64).min(values[1]);
    kept.insert(0, written(b'N', &values));
    Some(kept)
}

/// Tries smaller files, the greatest steps first, and gives the first that still differs.
fn smaller(file: &[u8], differs: &mut dyn FnMut(&[u8]) -> bool) -> Option<Vec<u8>> {
    let mut records: Vec<Vec<u8>> = file.split(|&b| b == b'\n').map(<[u8]>::to_vec).collect();
    let closed = records.last().is_some_and(Vec::is_empty);
    if closed {
        records.pop();
    }
    let mut attempt = |candidate: Vec<u8>| (candidate != file && differs(&candidate)).then_some(candidate);
    let mut step = records.len().div_ceil(2);
    while step > 0 {
        for end in (1..=records.len()).rev().step_by(step) {
            let start = end.saturating_sub(step);
            let renumbered = (start..end).rev().try_fold(records.clone(), |kept, i| without(&kept, i));
            let plainly = [&records[..start], &records[end..]].concat();
            for fewer in renumbered.into_iter().chain([plainly]) {
                if let Some(found) = attempt(joined(&fewer, closed)) {
                    return Some(found);
                }
            }
        }
        step /= 2;
    }
    for i in 0..records.len() {
        let Some(values) = numbers(&records[i]) else { continue };
        for (f, &value) in values.iter().enumerate() {
            for simpler in [0, 1, 2, value / 10, value / 2, value.saturating_sub(1)] {
                if simpler < value {
                    let mut changed = values.clone();
                    changed[f] = simpler;
                    let mut all = records.clone();
                    all[i] = written(records[i][0], &changed);
                    if let Some(found) = attempt(joined(&all, closed)) {
                        return Some(found);
                    }
                }
            }
        }
    }
    let mut step = file.len().div_ceil(2);
    while step > 0 && file.len() / step < 1_000 {
        for start in (0..file.len()).step_by(step) {
            let end = (start + step).min(file.len());
            if let Some(found) = attempt([&file[..start], &file[end..]].concat()) {
                return Some(found);
            }
        }
        step /= 2;
    }
    None
}

/// A smallest file found that still differs, within a time.
pub fn shrink(file: &[u8], time: Duration, differs: &mut dyn FnMut(&[u8]) -> bool) -> Vec<u8> {
    let start = Instant::now();
    let mut smallest = file.to_vec();
    let mut differs_still = |candidate: &[u8]| start.elapsed() < time && differs(candidate);
    while let Some(found) = smaller(&smallest, &mut differs_still) {
        smallest = found;
    }
    smallest
}
