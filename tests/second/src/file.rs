//! A network file: records, fields, ranges and the places' order (refusals 1 to 3).

use crate::mistakes::Mistake::*;
use crate::mistakes::Wrong;

pub const PLAIN: u64 = 0;
pub const BREAKER: u64 = 1;
pub const OPEN: u64 = 2;

/// The longest file that is read, in bytes.
pub const LONGEST: usize = 32_768;

#[derive(Clone, Copy, PartialEq, Eq, Debug)]
pub struct Refusal {
    pub number: u64,
    pub record: u64,
}

pub fn refuse<T>(number: u64, record: usize) -> Result<T, Refusal> {
    Err(Refusal { number, record: record as u64 })
}

pub struct Station {
    pub hv: bool,
    pub customers: u64,
}

pub struct Line {
    pub weight: u64,
    /// The stations of end 1 and end 2, counted from 0.
    pub stations: [usize; 2],
    pub states: [u64; 2],
}

pub struct Place {
    /// Counted from 0.
    pub line: usize,
    /// 0 for end 1, 1 for end 2.
    pub end: usize,
    pub cost: u64,
    pub hours: u64,
}

#[derive(Default)]
pub struct File {
    pub stations: Vec<Station>,
    pub lines: Vec<Line>,
    pub places: Vec<Place>,
    pub minutes: u64,
    pub series: u64,
    pub adds: usize,
    pub money: u64,
    pub hours: u64,
    pub visits: u64,
}

/// The kind of the record that is due after `before` records of a file with so many stations and lines.
fn kind_due(before: usize, stations: usize, lines: usize) -> u8 {
    match before {
        0 => b'N',
        b if b <= stations => b'S',
        b if b <= stations + lines => b'L',
        _ => b'P',
    }
}

fn field_count(kind: u8) -> usize {
    match kind {
        b'N' => 8,
        b'S' => 2,
        b'L' => 5,
        _ => 4,
    }
}

/// Least and largest value of field `at` of a record.
fn range(kind: u8, at: usize, stations: u64, lines: u64, values: &[u64], wrong: Wrong) -> (u64, u64) {
    match (kind, at) {
        (b'N', 0) => (1, 512),
        (b'N', 1) => (0, 768),
        (b'N', 2) => (0, 1_440),
        (b'N', 3) => (if wrong == Some(SeriesNought) { 0 } else { 1 }, 8),
        (b'N', 4) => (0, 16),
        (b'N', 5) => (0, 100_000_000),
        (b'N', 6) => (0, 100_000),
        (b'N', _) => (1, 1_000_000_000),
        (b'S', 0) => (0, 1),
        (b'S', _) if values[0] == 1 && wrong != Some(HvCustomers) => (0, 0),
        (b'S', _) => (0, 20_000),
        (b'L', 0) => (0, 1_000_000),
        (b'L', 1 | 2) => (1, stations),
        (b'L', _) => (0, 2),
        (_, 0) => (1, lines),
        (_, 1) => (1, 2),
        (_, 2) => (0, 1_000_000),
        _ => (0, 1_000),
    }
}

fn number(field: &[u8], wrong: Wrong) -> Option<u64> {
    let most = match wrong {
        Some(NineDigits) => 9,
        Some(ElevenDigits) => 11,
        _ => 10,
    };
    if field.is_empty() && wrong == Some(EmptyFieldZero) {
        return Some(0);
    }
    if field.is_empty() || field.len() > most || !field.iter().all(u8::is_ascii_digit) {
        return None;
    }
    if field[0] == b'0' && field.len() > 1 && wrong != Some(LeadingZero) {
        return None;
    }
    std::str::from_utf8(field).ok()?.parse().ok()
}

/// The numbers of a record of this kind, if it has that form.
fn form(record: &[u8], kind: u8, wrong: Wrong) -> Option<Vec<u64>> {
    let mut fields = record.split(|&b| b == b',');
    if fields.next()? != [kind] {
        return None;
    }
    let mut fields: Vec<&[u8]> = fields.collect();
    if wrong == Some(MoreFields) && fields.len() > field_count(kind) {
        fields.truncate(field_count(kind));
    }
    if fields.len() != field_count(kind) {
        return None;
    }
    fields.into_iter().map(|f| number(f, wrong)).collect()
}

/// Whether some field is out of range, in a record whose form may be wrong behind it.
fn early_range_fault(record: &[u8], kind: u8, stations: u64, lines: u64) -> bool {
    let mut values = Vec::new();
    let mut fields = record.split(|&b| b == b',');
    if fields.next() != Some(&[kind]) {
        return false;
    }
    for (at, field) in fields.take(field_count(kind)).enumerate() {
        let Some(value) = number(field, None) else { return false };
        values.push(value);
        let (least, largest) = range(kind, at, stations, lines, &values, None);
        if value < least || value > largest {
            return true;
        }
    }
    false
}

impl File {
    /// The file of these bytes, or the first of the refusals 1 to 3.
    pub fn read(bytes: &[u8], wrong: Wrong) -> Result<File, Refusal> {
        let longest = if wrong == Some(LongerAccepted) { LONGEST + 1 } else { LONGEST };
        if bytes.len() > longest && wrong != Some(LengthLast) {
            return refuse(1, 0);
        }
        let mut records: Vec<&[u8]> = bytes.split(|&b| b == b'\n').collect();
        let rest = records.pop().unwrap_or(&[]);
        let mut closed = records.len();
        if !rest.is_empty() {
            records.push(rest);
            if wrong == Some(UnclosedAccepted) {
                closed += 1;
            }
        }
        if wrong == Some(EmptyLastIgnored) && records.last() == Some(&&b""[..]) {
            records.pop();
        }
        let mut file = File::default();
        let (mut stations, mut lines) = (0, 0);
        for (before, &record) in records.iter().enumerate() {
            let at = before + 1;
            let mut record = record;
            if wrong == Some(ReturnDropped) && record.ends_with(b"\r") {
                record = &record[..record.len() - 1];
            }
            let kind = kind_due(before, stations, lines);
            if wrong == Some(RangeBeforeForm) && early_range_fault(record, kind, stations as u64, lines as u64) {
                return refuse(2, at);
            }
            if wrong == Some(SixtyFifthAtOnce) && file.places.len() == 64 {
                return refuse(3, at);
            }
            let well_formed = if before < closed { form(record, kind, wrong) } else { None };
            let Some(values) = well_formed else {
                if wrong == Some(ExtraIgnored) && kind == b'P' && before < closed && !record.starts_with(b"P") {
                    continue;
                }
                return refuse(1, at);
            };
            if wrong == Some(PlaceBeforeRange) && kind == b'P' && !file.in_order(&values, wrong) {
                return refuse(3, at);
            }
            for (i, &value) in values.iter().enumerate() {
                let (least, largest) = range(kind, i, stations as u64, lines as u64, &values, wrong);
                if value < least || value > largest {
                    return refuse(2, at);
                }
            }
            match kind {
                b'N' => {
                    (stations, lines) = (values[0] as usize, values[1] as usize);
                    file.minutes = values[2];
                    file.series = values[3];
                    file.adds = values[4] as usize;
                    file.money = values[5];
                    file.hours = values[6];
                    file.visits = values[7];
                    let due = 1 + stations + lines;
                    if wrong == Some(AbsentFirst) && records.len() < due && closed == records.len() {
                        return refuse(1, records.len() + 1);
                    }
                }
                b'S' => file.stations.push(Station { hv: values[0] == 1, customers: values[1] }),
                b'L' => file.lines.push(Line {
                    weight: values[0],
                    stations: [values[1] as usize - 1, values[2] as usize - 1],
                    states: [values[3], values[4]],
                }),
                _ => {
                    if wrong == Some(SixtyFifthAsExtra) && file.places.len() == 64 {
                        return refuse(1, at);
                    }
                    let (line, end) = (values[0] as usize - 1, values[1] as usize - 1);
                    let state = file.lines[line].states[end];
                    let free = match state {
                        PLAIN => true,
                        BREAKER => wrong == Some(PlaceOnBreaker),
                        _ => wrong == Some(PlaceOnOpen),
                    };
                    if !free || !file.in_order(&values, wrong) || file.places.len() == 64 {
                        return refuse(3, at);
                    }
                    file.places.push(Place { line, end, cost: values[2], hours: values[3] });
                }
            }
        }
        let due = if records.is_empty() { 1 } else { 1 + stations + lines };
        if records.len() < due {
            return refuse(1, if wrong == Some(AbsentLast) { due } else { records.len() + 1 });
        }
        if bytes.len() > LONGEST && wrong == Some(LengthLast) {
            return refuse(1, 0);
        }
        Ok(file)
    }

    /// Whether a place with these values comes after the one before by line, then end.
    fn in_order(&self, values: &[u64], wrong: Wrong) -> bool {
        let Some(last) = self.places.last() else { return true };
        let before = (last.line as u64 + 1, last.end as u64 + 1);
        let this = (values[0], values[1]);
        match wrong {
            Some(PlaceByEnd) => (before.1, before.0) < (this.1, this.0),
            Some(PlaceByLine) => before.0 < this.0,
            Some(PlaceTwice) => before <= this,
            _ => before < this,
        }
    }

    pub fn record_of_station(&self, station: usize) -> usize {
        2 + station
    }

    pub fn record_of_line(&self, line: usize) -> usize {
        2 + self.stations.len() + line
    }
}
