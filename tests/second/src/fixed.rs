//! Cases whose answers stand in the specification, and files made by rule and not by chance.

use crate::damage;
use crate::file::LONGEST;
use crate::generate::{self, Draft, Size, MOST_HOURS, MOST_MONEY};
use crate::random::Random;

/// `|` stands for a newline, `H` for a head's last six numbers.
pub fn bytes_of(text: &str) -> Vec<u8> {
    text.replace('|', "\n").replace('H', "90,3,0,0,0,1").into_bytes()
}

pub const FILE_K: &str =
    "N,4,3,90,3,1,10,8,100|S,1,0|S,0,10|S,0,20|S,0,30|L,2,1,2,1,0|L,3,2,3,0,0|L,5,3,4,0,0|P,2,1,4,1|P,3,1,4,1|";

fn k_with(changes: &[(&str, &str)]) -> String {
    let mut text = FILE_K.to_string();
    for (old, new) in changes {
        assert!(text.contains(old));
        text = text.replacen(old, new, 1);
    }
    text
}

/// The name, the file, and what `breakers` prints, in which `|` stands for a newline and `..` for any lines.
pub fn marked() -> Vec<(&'static str, String, &'static str)> {
    let fourth = |line: &str| k_with(&[("N,4,3", "N,4,4"), ("|P,2", &format!("|{line}|P,2"))]);
    let head = |new: &str| k_with(&[("3,1,10,8,100", new)]);
    vec![
        ("a", FILE_K.into(), "A,600,54000|F,1,60,120|F,2,60,180|F,3,60,300|C,1,3,1,450|B,3,1|"),
        ("b", head("3,2,10,8,100"), "A,600,..C,1,3,2,420|B,2,1|B,3,1|"),
        ("c", head("3,2,7,8,100"), "A,600,..C,1,3,1,450|B,3,1|"),
        ("d", head("2,2,10,8,100"), "A,600,..C,1,3,1,450|B,3,1|"),
        ("e", head("1,1,10,8,100"), "A,600,..C,1,1,0,600|"),
        ("f", head("3,1,10,8,2"), "A,600,..C,0,2,1,520|B,2,1|"),
        ("f, visits 3", head("3,1,10,8,3"), "A,600,..C,1,3,1,450|B,3,1|"),
        ("g", head("3,0,10,8,100"), "A,600,..C,1,1,0,600|"),
        ("h", fourth("L,7,4,1,0,1"), "X,6,0|"),
        ("i", fourth("L,7,4,1,2,1"), "A,600,..F,4,0,0|C.."),
        ("j", fourth("L,7,4,1,0,2"), "A,1020,..F,4,60,420|C.."),
        ("k", "N,1,0,H|S,1,0|".into(), "A,0,0|C,1,1,0,0|"),
        ("refusal 1", "N,1,0,H".into(), "X,1,1|"),
        ("refusal 2", "N,1,0,H|S,1,5|".into(), "X,2,2|"),
        ("refusal 3", k_with(&[("P,2,1,4,1|P,3,1,4,1", "P,3,1,4,1|P,2,1,4,1")]), "X,3,10|"),
        ("refusal 4", "N,2,1,H|S,1,0|S,0,5|L,1,1,2,2,2|".into(), "X,4,4|"),
        ("refusal 5", "N,2,1,H|S,1,0|S,0,5|L,1,1,2,0,0|".into(), "X,5,4|"),
        ("refusal 6", "N,1,1,H|S,1,0|L,1,1,1,1,1|".into(), "X,6,0|"),
        ("refusal 7", "N,2,1,H|S,1,0|S,1,0|L,1,1,2,1,1|".into(), "X,7,0|"),
        ("refusal 8", "N,1,0,H|S,0,5|".into(), "X,8,2|"),
        ("refusal 9", "N,2,1,90,1,0,0,0,1|S,1,0|S,0,5|L,1,1,2,1,1|".into(), "X,9,0|"),
        ("refusal 1, length", "0".repeat(LONGEST + 1), "X,1,0|"),
    ]
}

/// Cases of docs/DECISIONS.md, "Readings of the specification", in the form of the marked ones.
pub fn readings() -> Vec<(&'static str, String, &'static str)> {
    let k_and = |more: &str| format!("{FILE_K}{more}");
    let last_place = |new: &str| k_with(&[("P,3,1,4,1|", new)]);
    let one_line = |line: &str| format!("N,2,1,H|S,1,0|S,0,5|{line}|");
    let self_line = |line: &str| format!("N,2,2,H|S,1,0|S,0,5|L,1,1,2,1,0|{line}|");
    let chain = |places: usize, last: &str| {
        let mut text = "N,71,70,90,8,0,0,0,1|S,1,0|".to_string() + &"S,0,1|".repeat(70);
        text += "L,1,1,2,1,0|";
        (2..=70).for_each(|s| text += &format!("L,1,{s},{},0,0|", s + 1));
        (2..places + 2).for_each(|l| text += &format!("P,{l},1,0,0|"));
        text + last
    };
    vec![
        ("no bytes", "".into(), "X,1,1|"),
        ("one newline", "|".into(), "X,1,1|"),
        ("an empty record at the end", k_and("|"), "X,1,11|"),
        ("an empty record inside", k_with(&[("S,0,20|", "S,0,20||")]), "X,1,5|"),
        ("unclosed, out of range", last_place("P,9,1,4,1"), "X,1,10|"),
        ("unclosed, out of order", last_place("P,1,1,4,1"), "X,1,10|"),
        ("absent", "N,3,1,H|S,1,0|".into(), "X,1,3|"),
        ("absent, a fault before", "N,3,1,H|S,1,9|".into(), "X,2,2|"),
        ("a line for a station", "N,2,0,H|S,1,0|L,1,1,1,1,2|".into(), "X,1,3|"),
        ("an S behind the places", k_and("S,0,5|"), "X,1,11|"),
        ("64 places", chain(64, ""), "A,..C,1,1,0,4900|"),
        ("65 places", chain(65, ""), "X,3,207|"),
        ("the 65th place, unclosed", chain(64, "P,70,1,0,0"), "X,1,207|"),
        ("the 65th place, out of range", chain(64, "P,71,1,0,0|"), "X,2,207|"),
        ("the 65th place, form", chain(64, "P,70,1,0|"), "X,1,207|"),
        ("a carriage return", k_with(&[("S,0,20|", "S,0,20\r|")]), "X,1,4|"),
        ("a kind of two bytes", k_with(&[("S,0,20|", "SS,0,20|")]), "X,1,4|"),
        ("a field more", k_with(&[("S,0,20|", "S,0,20,0|")]), "X,1,4|"),
        ("an empty field more", k_with(&[("S,0,20|", "S,0,20,|")]), "X,1,4|"),
        ("eleven digits", k_with(&[("S,0,20|", "S,0,00000000020|")]), "X,1,4|"),
        ("ten digits", k_with(&[("S,0,20|", "S,0,4294967316|")]), "X,2,4|"),
        ("a leading zero", k_with(&[("S,0,20|", "S,0,020|")]), "X,1,4|"),
        ("two noughts", k_with(&[("S,0,20|", "S,00,20|")]), "X,1,4|"),
        ("form before range", k_with(&[("S,0,20|", "S,2,x|")]), "X,1,4|"),
        ("a place without lines", "N,1,0,H|S,1,0|P,1,1,0,0|".into(), "X,2,3|"),
        ("a place on an end of two open ones", k_with(&[("L,5,3,4,0,0", "L,5,3,4,2,2")]), "X,3,10|"),
        ("a place on a plain end at an HV station", one_line("L,1,1,2,0,0|P,1,1,0,0"), "X,5,4|"),
        ("a line from a station to itself", self_line("L,1,2,2,0,0"), "X,6,0|"),
        ("a line from a station to itself, one end open", self_line("L,1,2,2,2,0"), "A,10,900|F,1,5,5|F,2,5,5|C,1,1,0,10|"),
        ("a line from a station to itself, both ends open", self_line("L,1,2,2,2,2"), "X,4,5|"),
        ("4 behind 5", "N,2,2,H|S,1,0|S,0,5|L,1,1,2,0,0|L,1,1,2,2,2|".into(), "X,4,5|"),
        ("a hanging line plain at an HV station", self_line("L,1,1,2,0,2"), "X,5,5|"),
        ("a line open at an HV station", self_line("L,1,1,2,2,0"), "A,10,900|F,1,5,5|F,2,5,5|C,1,1,0,10|"),
        ("a ring without supply", "N,3,2,H|S,1,0|S,0,1|S,0,1|L,1,2,3,0,0|L,1,3,2,0,0|".into(), "X,6,0|"),
        ("a ring through an HV station", self_line("L,1,2,1,0,1"), "X,6,0|"),
        ("9 by a far end", k_with(&[("90,3,1", "90,1,1"), ("L,5,3,4,0,0", "L,5,3,4,0,1")]), "X,9,0|"),
        ("9 by a hanging line", "N,2,2,90,1,0,0,0,1|S,1,0|S,0,5|L,1,1,2,1,0|L,1,2,1,1,2|".into(), "X,9,0|"),
        ("a hanging line behind its own breaker", self_line("L,9,2,1,1,2"), "A,5,450|F,1,5,5|F,2,0,0|C,1,1,0,5|"),
        ("a far breaker, unmet by its line", one_line("L,3,1,2,1,1"), "A,15,1350|F,1,5,15|C,1,1,0,15|"),
    ]
}

/// Whether a printed text is the expected one, where `..` stands for any bytes.
pub fn agrees(printed: &[u8], expected: &str) -> bool {
    let expected = String::from_utf8(bytes_of(expected)).unwrap_or_default();
    let printed = String::from_utf8_lossy(printed);
    let mut parts = expected.split("..");
    let Some(mut rest) = printed.strip_prefix(parts.next().unwrap_or("")) else { return false };
    let mut open = false;
    for part in parts {
        open = true;
        match rest.find(part) {
            Some(at) if !part.is_empty() => {
                rest = &rest[at + part.len()..];
                open = false;
            }
            Some(_) => {}
            None => return false,
        }
    }
    open || rest.is_empty()
}

/// A file with every kind of line: hanging, between trees, a breaker at a far end, places at both ends.
pub const FILE_M: &str =
    "N,6,7,60,3,3,9,9,50|S,0,7|S,1,0|S,0,20|S,1,0|S,0,5|S,0,11|L,2,2,1,1,0|L,3,3,1,1,0|L,5,6,4,0,1|L,8,5,6,0,0|\
L,1,3,5,0,2|L,4,5,5,2,0|L,6,4,2,1,2|P,1,2,4,1|P,2,2,1,2|P,3,1,2,2|P,4,1,3,3|P,4,2,3,1|P,5,1,1,1|P,6,2,2,2|";

/// Single-byte changes of a file: every position with a few values, some positions with all values.
fn byte_changes(name: &str, file: &[u8], every: usize, out: &mut Named) {
    for at in 0..file.len() {
        for value in 0..=255u8 {
            let few = b"NSLP,0123456789\n\r ".contains(&value);
            if value != file[at] && (few || at % every == 0) {
                let mut changed = file.to_vec();
                changed[at] = value;
                out.push((format!("{name}, byte {at} made {value}"), changed));
            }
        }
        let mut shorter = file.to_vec();
        shorter.remove(at);
        out.push((format!("{name} without byte {at}"), shorter));
        for value in *b"0,\n1" {
            let mut longer = file.to_vec();
            longer.insert(at, value);
            out.push((format!("{name}, byte {value} put in before byte {at}"), longer));
        }
    }
}

/// Every field with values at and behind the edges of all ranges.
fn edge_values(name: &str, file: &[u8], out: &mut Named) {
    let values: Vec<String> = [0, 1, 2, 3, 7, 8, 9, 10, 16, 17, 512, 513, 768, 769, 1_000, 1_001, 1_440, 1_441, 20_000, 20_001]
        .iter()
        .chain(&[100_000, 100_001, 1_000_000, 1_000_001, 100_000_000, 100_000_001, 1_000_000_000, 1_000_000_001])
        .chain(&[4_294_967_295, 4_294_967_296, 4_294_967_297, 9_999_999_999, 10_000_000_000u64])
        .map(u64::to_string)
        .chain(
            ["00", "01", "0000000001", "00000000001", "", "-1", "+1", " 1", "1 ", "1.", "18446744073709551617"].map(String::from),
        )
        .collect();
    let text = String::from_utf8_lossy(file).into_owned();
    let records: Vec<&str> = text.split_terminator('\n').collect();
    for (i, record) in records.iter().enumerate() {
        let fields: Vec<&str> = record.split(',').collect();
        for f in 1..fields.len() {
            for value in &values {
                let mut changed = fields.clone();
                changed[f] = value;
                let changed = changed.join(",");
                let mut all = records.clone();
                all[i] = &changed;
                out.push((format!("{name}, record {}, number {f} made '{value}'", i + 1), (all.join("\n") + "\n").into_bytes()));
            }
        }
    }
}

/// The file that has the largest total and figure, as nearly as 512 stations allow, and the largest sizes.
fn largest() -> Draft {
    let mut draft = Draft { head: [1_440, 8, 2, MOST_MONEY, MOST_HOURS, 300], ..Draft::default() };
    draft.stations.push([1, 0]);
    for s in 2..=512 {
        draft.stations.push([0, 20_000]);
        draft.lines.push([1_000_000, s - 1, s, u64::from(s == 2), 0]);
    }
    for l in 0..257 {
        draft.lines.push([1_000_000, 512 - l, 1 + l, 0, 2]);
    }
    for l in 705..=768 {
        draft.places.push([l, 1, 1_000_000, 1_000]);
    }
    draft
}

/// Networks with as many breaker ends as lines allow: each of 511 closed lines and 257 hanging ones has a breaker at every closed
/// end; with all ends closed there are 1,536, and rings.
fn most_breakers(out: &mut Named) {
    for open in [2, 1] {
        let mut draft = Draft { head: [1_440, 2, 0, 0, 0, 1], ..Draft::default() };
        draft.stations = (0..512).map(|s| if s == 0 { [1, 0] } else { [0, 20_000 - s] }).collect();
        draft.lines = (0..768).map(|l| [1_000_000 - l, 1, l % 511 + 2, 1, if l < 511 { 1 } else { open }]).collect();
        out.push((format!("breakers at all closed ends, last ends in state {open}"), draft.bytes()));
    }
}

/// Rings, paths between HV stations and paths with too many breakers, of so many lines that words name all or the first of them.
/// The lines are numbered along the path or against it, with a hanging line and a branch among them.
fn long_paths(out: &mut Named) {
    for (count, backwards) in [2u64, 3, 23, 24, 25, 26, 100, 509].into_iter().flat_map(|n| [(n, false), (n, true)]) {
        let mut push = |name: &str, draft: &Draft| {
            out.push((format!("{name} of {count} lines, backwards: {backwards}"), draft.bytes()));
        };
        // From station 1, an HV station, to the last of the path
        let last = count + 1;
        let mut path = Draft { head: [90, 8, 1, 9, 9, 9], ..Draft::default() };
        path.stations = (0..=last).map(|s| if s == 0 { [1, 0] } else { [0, s] }).collect();
        path.lines = (1..last).map(|s| [s, s, s + 1, u64::from(s == 1), 0]).collect();
        if backwards {
            path.lines.reverse();
        }
        let half = path.lines.len() / 2;
        path.lines.insert(half, [3, last / 2 + 1, last + 1, 0, 0]);
        path.lines.insert(half, [2, 2, last, 2, 0]);

        let mut ring = path.clone();
        ring.lines[half][3] = 0;
        push("a ring that no HV station is on", &ring);
        ring.lines[half] = [2, 1, last, 1, 0];
        push("a ring", &ring);
        let mut joined = path.clone();
        joined.stations[count as usize] = [1, 0];
        joined.lines.iter_mut().filter(|line| line[2] == last).for_each(|line| line[4] = 1);
        push("two HV stations", &joined);
        path.head[1] = 1;
        for line in path.lines.iter_mut().filter(|line| line[1] % 3 != 2 && line[3] != 2) {
            line[3] = 1;
            line[4] = line[1] % 2;
        }
        push("breakers", &path);
    }
}

/// Every set of the faults behind 4 to 9, in one network. Fault 6 stands twice: where there is supply, and where there is none.
fn fault_sets(out: &mut Named) {
    for faults in 0u32..1 << 7 {
        let mut draft = Draft { head: [90, 1, 1, 9, 9, 9], ..Draft::default() };
        draft.stations = vec![[0, 4], [1, 0], [0, 5], [1, 0], [0, 6]];
        draft.lines = vec![[1, 2, 1, 1, 0], [2, 3, 1, 0, 0], [3, 4, 5, 1, 0], [4, 5, 3, 0, 2]];
        let mut names = Vec::new();
        for (i, (number, lines)) in [
            (9, &[[1, 3, 5, 1, 2]][..]),
            (8, &[]),
            (7, &[[1, 2, 4, 1, 1]]),
            (6, &[[1, 1, 3, 0, 0]]),
            (6, &[[1, 7, 8, 0, 0], [1, 8, 7, 0, 0]]),
            (5, &[[1, 2, 3, 0, 2], [1, 3, 4, 2, 0]]),
            (4, &[[1, 3, 1, 2, 2], [1, 5, 5, 2, 2]]),
        ]
        .into_iter()
        .enumerate()
        {
            if faults >> i & 1 == 1 {
                names.push(number);
                draft.lines.extend_from_slice(lines);
            }
        }
        if faults & 0b1_0010 != 0 {
            draft.stations.extend([[0, 1], [0, 0], [0, 9]]);
        }
        out.push((format!("faults {names:?}"), draft.bytes()));
    }
}

/// Files with their names.
pub type Named = Vec<(String, Vec<u8>)>;

/// Files by rule. Those of the second list are many and are given to fewer calls.
pub fn by_rule() -> (Named, Named) {
    let (k, m) = (bytes_of(FILE_K), bytes_of(FILE_M));
    let mut few = vec![("largest file".to_string(), largest().bytes()), ("file M".to_string(), m.clone())];
    for chain in [1usize, 2, 511] {
        // A chain of stations, numbered from the HV station or towards it
        for backwards in [false, true] {
            let mut draft = Draft { head: [90, 2, 2, 9, 9, 40], ..Draft::default() };
            let last = chain as u64 + 1;
            let name = |s: u64| if backwards { last + 1 - s } else { s };
            draft.stations = (1..=last).map(|s| if name(s) == 1 { [1, 0] } else { [0, s % 7] }).collect();
            draft.lines = (1..last).map(|s| [s % 5, name(s), name(s + 1), u64::from(s == 1), 0]).collect();
            draft.places = (1..last).step_by(chain / 64 + 1).map(|l| [l, 2, l % 3, l % 2]).collect();
            few.push((format!("chain of {chain}, backwards: {backwards}"), draft.bytes()));
        }
    }
    for length in [LONGEST - 1, LONGEST, LONGEST + 1, LONGEST + 2, 40_000, 65_536, 1_000_000] {
        for fill in *b"\n0,P" {
            let mut file = k.clone();
            file.resize(length, fill);
            few.push((format!("file K made {length} bytes long with byte {fill}"), file));
        }
    }
    // 64, 65 and 66 places, the last ones with other faults too
    for (places, last) in [
        (63, ""),
        (64, ""),
        (65, ""),
        (66, ""),
        (65, "P,70,1,0,01\n"),
        (65, "P,70,3,0,0\n"),
        (64, "P,1,1,0,0\n"),
        (64, "S,0,1\n"),
        (64, "P,70,1,0,0"),
    ] {
        let mut draft = Draft { head: [90, 8, 1, 100, 100, 1_000], ..Draft::default() };
        draft.stations = (0..71).map(|s| if s == 0 { [1, 0] } else { [0, 3] }).collect();
        draft.lines = (0..70).map(|s| [1, s + 1, s + 2, u64::from(s == 0), 0]).collect();
        let full = if last.is_empty() { places } else { places.min(64) };
        draft.places = (0..full).map(|p| [p + 2, 1, 1, 1]).collect();
        let mut file = draft.bytes();
        file.extend_from_slice(last.as_bytes());
        few.push((format!("{full} places, then '{}'", last.trim()), file));
    }

    most_breakers(&mut few);
    long_paths(&mut few);
    fault_sets(&mut few);

    let mut many = Vec::new();
    for (name, file) in [("file K", &k), ("file M", &m)] {
        for length in 0..=file.len() {
            many.push((format!("first {length} bytes of {name}"), file[..length].to_vec()));
        }
        edge_values(name, file, &mut many);
        let records: Vec<&[u8]> = file.split_inclusive(|&b| b == b'\n').collect();
        for i in 0..records.len() {
            let but_one = [&records[..i], &records[i + 1..]].concat().concat();
            many.push((format!("{name} without record {}", i + 1), but_one));
            for j in 0..records.len() {
                let mut swapped = records.clone();
                swapped.swap(i, j);
                many.push((format!("{name}, records {} and {} swapped", i + 1, j + 1), swapped.concat()));
                let repeated = [&records[..i], &[records[j]], &records[i..]].concat().concat();
                many.push((format!("{name}, record {} again before record {}", j + 1, i + 1), repeated));
            }
        }
    }
    byte_changes("file K", &k, 8, &mut many);
    byte_changes("file M", &m, 64, &mut many);
    (few, many)
}

/// A file of a seed: the name of its kind, and its bytes.
pub fn by_chance(seed: u64, case: u64) -> (&'static str, Vec<u8>) {
    let mut r = Random::of(seed, case);
    let size = match r.below(100) {
        0..=64 => Size::Small,
        65..=92 => Size::Middle,
        93..=97 => Size::Large,
        _ => Size::Full,
    };
    let kind = r.below(20);
    let mut draft = generate::network(&mut r, size);
    match kind {
        0..=9 => ("accepted", draft.bytes()),
        10..=14 => {
            for _ in 0..1 + r.below(3) {
                damage::misstate(&mut r, &mut draft);
            }
            ("misstated", draft.bytes())
        }
        15 | 16 => {
            let mut file = draft.bytes();
            for _ in 0..1 + r.below(2) {
                damage::miswrite(&mut r, &mut file);
            }
            ("miswritten", file)
        }
        17 | 18 => {
            damage::misstate(&mut r, &mut draft);
            if r.once_in(2) {
                damage::misstate(&mut r, &mut draft);
            }
            let mut file = draft.bytes();
            damage::miswrite(&mut r, &mut file);
            ("misstated and miswritten", file)
        }
        _ => {
            let file = draft.bytes();
            ("noise", damage::noise(&mut r, file))
        }
    }
}
