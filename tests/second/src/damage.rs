//! Faults of every kind, put into accepted files.

use crate::file::{BREAKER, LONGEST, OPEN, PLAIN};
use crate::generate::{Draft, ADDS, HOURS, MINUTES, MONEY, SERIES, VISITS};
use crate::random::Random;

/// Faults in what the file says: refusals 2 to 9.
pub fn misstate(r: &mut Random, draft: &mut Draft) {
    let stations = draft.stations.len();
    let lines = draft.lines.len();
    match r.below(22) {
        // 4
        0 | 1 if lines > 0 => {
            let l = r.below(lines);
            draft.lines[l][3] = OPEN;
            draft.lines[l][4] = OPEN;
        }
        // 5
        2 | 3 => {
            for l in 0..lines {
                for end in 1..3 {
                    if draft.is_hv(draft.lines[l][end]) && draft.lines[l][end + 2] == BREAKER && r.once_in(2) {
                        draft.lines[l][end + 2] = PLAIN;
                    }
                }
            }
        }
        // 6 or 7: an opening is closed
        4 | 5 if lines > 0 => {
            let l = r.below(lines);
            for end in 1..3 {
                if draft.lines[l][end + 2] == OPEN {
                    draft.lines[l][end + 2] = if draft.is_hv(draft.lines[l][end]) { BREAKER } else { PLAIN };
                }
            }
        }
        // 6 or 7: a further line, perhaps beside another one
        6..=8 if lines < 768 => {
            let (mut from, mut to) = (r.between(1, stations as u64), r.between(1, stations as u64));
            if lines > 0 && r.once_in(3) {
                let l = r.below(lines);
                (from, to) = (draft.lines[l][1], draft.lines[l][2]);
            }
            if r.once_in(6) {
                to = from;
            }
            let hv: Vec<u64> = (1..=stations as u64).filter(|&s| draft.is_hv(s)).collect();
            if hv.len() > 1 && r.once_in(2) {
                (from, to) = (r.pick(&hv), r.pick(&hv));
            }
            let state = |s: u64| if draft.is_hv(s) { BREAKER } else { PLAIN };
            let line = [r.between(0, 9), from, to, state(from), state(to)];
            draft.lines.push(line);
        }
        // 8: an end is opened; its places go
        9..=11 if lines > 0 => {
            let l = r.below(lines);
            let end = r.between(1, 2);
            if draft.lines[l][5 - end as usize] != OPEN {
                draft.lines[l][end as usize + 2] = OPEN;
                draft.places.retain(|p| p[0] != l as u64 + 1 || p[1] != end);
            }
        }
        // 8 and 6: stations with no supply, alone, in a row or in a ring
        12 | 13 if stations + 3 <= 512 && lines + 3 <= 768 => {
            let more = r.between(1, 3);
            let first = stations as u64 + 1;
            for s in 0..more {
                draft.stations.push([0, r.between(0, 9)]);
                if s > 0 {
                    draft.lines.push([1, first + s - 1, first + s, PLAIN, PLAIN]);
                }
            }
            if more == 3 && r.once_in(2) {
                draft.lines.push([1, first + 2, first, PLAIN, r.pick(&[PLAIN, BREAKER])]);
            }
        }
        // 7, 8 or 2: roles
        14 => {
            let s = r.below(stations);
            draft.stations[s][0] = u64::from(draft.stations[s][0] == 0);
            if r.once_in(2) && draft.stations[s][0] == 1 {
                draft.stations[s][1] = 0;
            }
        }
        // 9: fewer in series, or more breakers
        15 | 16 => {
            draft.head[SERIES] = r.pick(&[1, 1, draft.head[SERIES].saturating_sub(1).max(1)]);
            if r.once_in(2) {
                for line in &mut draft.lines {
                    for state in &mut line[3..] {
                        if *state == PLAIN && r.once_in(2) {
                            *state = BREAKER;
                        }
                    }
                }
                let all = draft.clone();
                draft.places.retain(|p| all.on_plain(p));
            }
        }
        // 3: order, repetition, place on a breaker or open end
        17 if draft.places.len() > 1 => {
            let p = r.below(draft.places.len() - 1);
            match r.below(3) {
                0 => draft.places.swap(p, p + 1),
                1 => draft.places[p + 1] = draft.places[p],
                _ => draft.places[p][1] = if draft.places[p][1] == 1 { 2 } else { 1 },
            }
        }
        18 if lines > 0 => {
            draft.places.push([r.between(1, lines as u64), r.between(1, 2), 1, 1]);
            if r.once_in(2) {
                draft.places.sort_unstable();
            }
        }
        // 3: the 65th place
        19 => {
            let mut all: Vec<[u64; 4]> = Vec::new();
            for l in 0..lines {
                for end in 1..3 {
                    if draft.lines[l][end + 2] == PLAIN {
                        all.push([l as u64 + 1, end as u64, 1, 1]);
                    }
                }
            }
            if all.len() > 64 {
                all.truncate(65 + r.below(3));
                draft.places = all;
            } else if let Some(&last) = draft.places.last() {
                while draft.places.len() < 65 {
                    draft.places.push(last);
                }
            }
        }
        // 2: a value at or behind the edge of its range
        _ => {
            let odd =
                [0, 1, 2, 3, 4, 8, 9, 16, 17, 512, 513, 768, 769, 1_000, 1_001, 1_440, 1_441, 20_000, 20_001, 100_000, 100_001];
            let large = [
                1_000_000,
                1_000_001,
                100_000_000,
                100_000_001,
                1_000_000_000,
                1_000_000_001,
                4_294_967_296,
                4_294_967_297,
                9_999_999_999,
            ];
            let value = if r.once_in(2) { r.pick(&odd) } else { r.pick(&large) };
            match r.below(4) {
                0 => {
                    draft.head[r.pick(&[MINUTES, SERIES, ADDS, MONEY, HOURS, VISITS])] =
                        value.min(if r.once_in(2) { 3 } else { u64::MAX })
                }
                1 => {
                    let s = r.below(stations);
                    draft.stations[s][r.below(2)] = value;
                }
                2 if lines > 0 => {
                    let l = r.below(lines);
                    draft.lines[l][r.below(5)] = value;
                }
                _ if !draft.places.is_empty() => {
                    let p = r.below(draft.places.len());
                    draft.places[p][r.below(4)] = value;
                }
                _ => draft.head[VISITS] = 0,
            }
        }
    }
}

/// Bytes that are no part of any number.
const ODD_BYTES: &[u8] = b" \t\r\0-+.\"',;:/~nslpx\x80\xff\x0b\x0c";

/// Faults in how the file is written: refusal 1, mostly.
pub fn miswrite(r: &mut Random, bytes: &mut Vec<u8>) {
    let mut records: Vec<Vec<u8>> = bytes.split(|&b| b == b'\n').map(<[u8]>::to_vec).collect();
    records.pop();
    if records.is_empty() {
        bytes.push(b'\n');
        return;
    }
    let i = if r.once_in(4) { records.len() - 1 } else { r.below(records.len()) };
    let fields: Vec<Vec<u8>> = records[i].split(|&b| b == b',').map(<[u8]>::to_vec).collect();
    let f = r.below(fields.len());
    let mut changed = fields.clone();
    match r.below(26) {
        0 => drop(records.remove(i)),
        1 => records.insert(i, records[i].clone()),
        2 => {
            let j = r.below(records.len());
            records.swap(i, j);
        }
        3 => changed[0] = vec![r.pick(b"NSLPXnslpMA0,")],
        4 => drop(changed.remove(f)),
        5 => changed.insert(f + 1, b"0".to_vec()),
        6 => changed[f].clear(),
        7 => changed[f].insert(0, b'0'),
        8 => changed[f] = b"00".to_vec(),
        9 => {
            changed[f] =
                r.pick(&[&b"12345678901"[..], b"00000000001", b"10000000000", b"18446744073709551617", b"99999999999"]).to_vec()
        }
        10 => changed[f] = r.pick(&[&b"1234567890"[..], b"9999999999", b"4294967296", b"4294967297", b"1000000001"]).to_vec(),
        11 => {
            let at = r.below(changed[f].len() + 1);
            let byte = r.pick(ODD_BYTES);
            changed[f].insert(at, byte);
        }
        12 => changed.last_mut().expect("a record has a field").push(b'\r'),
        13 => records.iter_mut().for_each(|record| record.push(b'\r')),
        14 => records.insert(r.below(records.len() + 1), Vec::new()),
        15 => records.push(Vec::new()),
        16 => records.push(r.pick(&[&b"P,1,1,1,1"[..], b"S,0,5", b"L,1,1,1,1,2", b"N,1,0,90,3,0,0,0,1", b"X", b","]).to_vec()),
        17 => records.insert(r.below(2), b"N,1,0,90,3,0,0,0,1".to_vec()),
        18 => changed.push(Vec::new()),
        _ => {
            let at = r.below(bytes.len());
            let any = r.any() as u8;
            match r.below(6) {
                0 => bytes.truncate(at),
                1 => drop(bytes.pop()),
                2 => drop(bytes.remove(at)),
                3 => bytes.insert(at, any),
                4 => bytes[at] = r.pick(b"NSLP,0123456789\n"),
                _ => bytes[at] = any,
            }
            return;
        }
    }
    if changed != fields {
        records[i] = changed.join(&b","[..]);
    }
    *bytes = records
        .into_iter()
        .flat_map(|mut record| {
            record.push(b'\n');
            record
        })
        .collect();
}

/// Bytes that were never a file, or one made too long.
pub fn noise(r: &mut Random, mut file: Vec<u8>) -> Vec<u8> {
    let length = r.pick(&[LONGEST - 1, LONGEST, LONGEST + 1, LONGEST + 2, LONGEST + 7_232]);
    match r.below(6) {
        0 => (0..r.below(60)).map(|_| r.any() as u8).collect(),
        1 => (0..r.below(200)).map(|_| r.pick(b"NSLP,,,0011223\n\n")).collect(),
        2 => {
            // Places without end
            while file.len() < length {
                file.extend_from_slice(b"P,1,1,0,0\n");
            }
            file.truncate(length);
            file
        }
        3 => {
            // A record without end
            file.resize(length.max(file.len()), r.pick(b"0,\0"));
            file
        }
        4 => {
            // Empty records without end
            file.resize(length.max(file.len()), b'\n');
            file
        }
        _ => (0..length).map(|_| r.any() as u8).collect(),
    }
}
