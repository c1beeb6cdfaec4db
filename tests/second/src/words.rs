//! The words on standard error: nothing for an answer, one line for a refusal. Those of 6 to 9 are held to the network: which
//! lines lie on a ring, on the path between two HV stations or behind each other, and what is joined with a station without supply,
//! is worked out anew, from the file's stations and lines alone.

use crate::file::{File, Refusal, BREAKER, OPEN};
use crate::mistakes::Mistake::*;
use crate::mistakes::Wrong;

/// The most lines that words name.
const MOST_NAMED: usize = 24;

/// The refusal that a printed text is.
pub fn refusal_of(text: &[u8]) -> Option<Refusal> {
    let text = std::str::from_utf8(text).ok()?;
    let (number, record) = text.strip_prefix("X,")?.strip_suffix('\n')?.split_once(',')?;
    Some(Refusal { number: number.parse().ok()?, record: record.parse().ok()? })
}

/// What is wrong with the words said of a file when this text was printed.
pub fn fault_of(file: &[u8], text: &[u8], words: &[u8], wrong: Wrong) -> Option<String> {
    let Some(Refusal { number, record }) = refusal_of(text) else {
        let due = if wrong == Some(AnsweredWords) { &b"answered.\n"[..] } else { b"" };
        return (words != due).then(|| "no words of an answer".into());
    };
    let begin = match record {
        0 => format!("breakers: refusal {number}: "),
        _ if wrong == Some(WordsWithoutRecord) => format!("breakers: refusal {number}: "),
        _ => format!("breakers: refusal {number}, record {record} (line {record} in an editor): "),
    };
    let end = if wrong == Some(WordsUnclosed) { "." } else { ".\n" };
    let sentence = std::str::from_utf8(words).ok().and_then(|w| w.strip_prefix(&begin)?.strip_suffix(end));
    let Some(sentence) = sentence.filter(|s| !s.is_empty() && s.bytes().all(|b| (b' '..=b'~').contains(&b))) else {
        return Some(format!("one line that begins '{begin}' and ends in a full stop"));
    };
    let lines = || Lines { file: File::read(file, None).unwrap_or_default(), wrong };
    let due = match number {
        6 => lines().ring(sentence),
        7 => lines().joined(sentence),
        8 => (record as usize).checked_sub(2).and_then(|station| lines().unsupplied(station)),
        9 => lines().series(sentence),
        _ => return None,
    };
    match due {
        None => Some(format!("words of {number} that are true of the network")),
        Some(due) => (due != sentence).then(|| format!("{begin}{due}.")),
    }
}

/// The first number behind some words, which counts from 1, made an index.
fn index_behind(text: &str, words: &str) -> Option<usize> {
    let (_, rest) = text.split_once(words)?;
    let digits = rest.bytes().take_while(u8::is_ascii_digit).count();
    rest[..digits].parse::<usize>().ok()?.checked_sub(1)
}

/// The numbers of a list, and how many more it has.
fn listed(list: &str) -> Option<(Vec<usize>, usize)> {
    let (list, more) = match list.strip_suffix(" more") {
        Some(list) => list.rsplit_once(" and ").and_then(|(list, more)| Some((list, more.parse().ok()?)))?,
        None => (list, 0),
    };
    let numbers: Option<Vec<usize>> = list.split(", ").flat_map(|part| part.split(" and ")).map(|n| n.parse().ok()).collect();
    Some((numbers?, more))
}

/// What is named as a list whose last part stands behind a word, with how many more it has.
fn list<T: ToString>(named: &[T], word: &str, more: usize) -> String {
    let words: Vec<String> = named.iter().map(T::to_string).collect();
    match words.split_last() {
        _ if more > 0 => format!("{} {word} {more} more", words.join(", ")),
        Some((last, first)) if !first.is_empty() => format!("{} {word} {last}", first.join(", ")),
        _ => words.concat(),
    }
}

/// The first of some parts that are named, as a list with a word, with how many more there are.
fn list_of_all<T: ToString>(parts: &[T], word: &str) -> String {
    let named = &parts[..parts.len().min(MOST_NAMED)];
    list(named, word, parts.len() - named.len())
}

/// A file whose lines are looked at, with a mistake or none.
struct Lines {
    file: File,
    wrong: Wrong,
}

impl Lines {
    fn is_closed(&self, line: usize) -> bool {
        !self.file.lines[line].states.contains(&OPEN)
    }

    /// For each station that is reached from one over closed lines, all of which are taken: the line that leads to it.
    fn reached(&self, from: usize, taken: impl Fn(usize) -> bool) -> Vec<Option<Option<usize>>> {
        let mut at = vec![Vec::new(); self.file.stations.len()];
        for (l, line) in self.file.lines.iter().enumerate().filter(|(l, _)| self.is_closed(*l) && taken(*l)) {
            line.stations.iter().for_each(|&s| at[s].push(l));
        }
        let mut over = vec![None; at.len()];
        over[from] = Some(None);
        let mut due = vec![from];
        while let Some(s) = due.pop() {
            for &l in &at[s] {
                for other in self.file.lines[l].stations {
                    if over[other].is_none() {
                        over[other] = Some(Some(l));
                        due.push(other);
                    }
                }
            }
        }
        over
    }

    /// The lines between a station and the one that others were reached from.
    fn way_back(&self, over: &[Option<Option<usize>>], station: usize) -> Option<Vec<usize>> {
        let mut lines = Vec::new();
        let mut at = station;
        while let Some(l) = over[at]? {
            lines.push(l);
            let [one, other] = self.file.lines[l].stations;
            at = if at == one { other } else { one };
        }
        Some(lines)
    }

    fn is_hv(&self, station: usize) -> bool {
        self.file.stations.get(station).is_some_and(|s| s.hv)
    }

    fn station(&self, station: usize) -> String {
        format!("station {} (record {})", station + 1, self.file.record_of_station(station))
    }

    /// Lines in words: those that are named, by index, and how many more there are.
    fn lines(&self, named: &[usize], more: usize) -> String {
        let s = if named.len() == 1 { "" } else { "s" };
        let numbers: Vec<usize> = named.iter().map(|l| l + 1).collect();
        let records: Vec<usize> = named.iter().map(|&l| self.file.record_of_line(l)).collect();
        format!("line{s} {} (record{s} {})", list(&numbers, "and", more), list(&records, "and", more))
    }

    /// All of some lines in words.
    fn all(&self, mut lines: Vec<usize>) -> String {
        lines.sort_unstable();
        let more = lines.len().saturating_sub(MOST_NAMED);
        lines.truncate(MOST_NAMED);
        self.lines(&lines, more)
    }

    /// Whether a ring that a line lies on may have so many lines: where no other ring is joined to it, just as many as it has.
    fn may_be(&self, line: usize, count: usize) -> bool {
        let stations = |l: usize| self.file.lines[l].stations;
        let mut left: Vec<usize> = (0..self.file.lines.len()).filter(|&l| self.is_closed(l)).collect();
        // Lines with an end at a station where no other ends are taken away until there is none.
        let ends = loop {
            let mut ends = vec![0; self.file.stations.len()];
            left.iter().flat_map(|&l| stations(l)).for_each(|s| ends[s] += 1);
            let before = left.len();
            left.retain(|&l| stations(l).iter().all(|&s| ends[s] > 1));
            if left.len() == before {
                break ends;
            }
        };
        let over = self.reached(stations(line)[0], |l| left.binary_search(&l).is_ok());
        let joined = left.iter().filter(|&&l| over[stations(l)[0]].is_some()).count();
        let single = (0..ends.len()).all(|s| over[s].is_none() || ends[s] == 2);
        count == joined || count < joined && !single
    }

    /// The words of 6 that name the lines of these, without their full stop; none if these lines are no ring.
    fn ring(&self, words: &str) -> Option<String> {
        if words.starts_with("both ends of ") {
            let l = index_behind(words, "line ").filter(|&l| l < self.file.lines.len() && self.is_closed(l))?;
            let [one, other] = self.file.lines[l].stations;
            let what = "so that it is a ring by itself: correct one of its stations (from or to), or open one end (state 2)";
            let (line, station) = (self.lines(&[l], 0), self.station(one));
            return (one == other).then(|| format!("both ends of {line} are closed at {station}, {what}"));
        }
        let (numbers, more) = listed(words.strip_prefix("lines ")?.split_once(" (")?.0)?;
        let named: Vec<usize> = numbers.iter().map(|n| n.wrapping_sub(1)).collect();
        let fewest = if self.wrong == Some(WordsParallel) { 3 } else { 2 };
        if named.len() < fewest || more > 0 && named.len() != MOST_NAMED || !named.windows(2).all(|w| w[0] < w[1]) {
            return None;
        }
        // Without a line of a ring all its stations are joined by the ring's others, and each has two of the ring's ends.
        let stations: Vec<[usize; 2]> =
            named.iter().map(|&l| self.file.lines.get(l).map(|line| line.stations)).collect::<Option<_>>()?;
        let mut ends = vec![0; self.file.stations.len()];
        for (&l, at) in named.iter().zip(&stations) {
            let over = self.reached(at[0], |other| other != l && (more > 0 || named.contains(&other)));
            if !self.is_closed(l) || stations.as_flattened().iter().any(|&s| over[s].is_none()) {
                return None;
            }
            at.iter().for_each(|&s| ends[s] += 1);
        }
        if ends.iter().any(|&n| n > 2 || more == 0 && n == 1) || more > 0 && !self.may_be(named[0], named.len() + more) {
            return None;
        }
        // Lines between the same two stations may be one line, there twice.
        let copied = named.len() == 2 && stations[1].iter().all(|s| stations[0].contains(s));
        let what = if copied && self.wrong != Some(WordsNoCopy) {
            ", or delete one of them if it is there twice, count one line less in record 1, and look whether each P record names the line that it should"
        } else {
            ""
        };
        let lines = self.lines(&named, more);
        Some(format!("{lines} form a ring: open one end of one of them (state 2), or correct a wrong station (from or to){what}"))
    }

    /// The words of 7 that name the HV stations of these, with all lines between them.
    fn joined(&self, words: &str) -> Option<String> {
        let one = index_behind(words, "HV station ").filter(|&s| self.is_hv(s))?;
        let other = index_behind(words, "and HV station ").filter(|&s| self.is_hv(s))?;
        if one == other || (one > other) != (self.wrong == Some(WordsLargerFirst)) {
            return None;
        }
        let between = self.way_back(&self.reached(one, |_| true), other)?;
        let what = if between.len() == 1 { "open one of its ends" } else { "open one end of one of them" };
        let (one, other) = (self.station(one), self.station(other));
        let mend = format!("{what} (state 2), or correct a wrong station (from or to), or the role of one of the two stations if it is no HV station");
        Some(format!("HV {one} and HV {other} are joined by {}: {mend}", self.all(between)))
    }

    /// The open ends of some lines with one each, by index, in words, and how one of them is closed.
    fn open_ends(&self, lines: &[usize]) -> (String, &str) {
        let end = |l: usize| usize::from(self.file.lines[l].states[1] == OPEN);
        let names: Vec<String> = lines.iter().map(|&l| format!("end {} of {}", end(l) + 1, self.lines(&[l], 0))).collect();
        let at_hv = lines.iter().filter(|&&l| self.is_hv(self.file.lines[l].stations[end(l)])).count();
        let closing = match at_hv {
            0 => "closed (state 0 plain, 1 breaker)",
            n if n == lines.len() => "made a breaker (state 1)",
            _ => "closed (state 0 plain, 1 breaker; only 1 at an HV station)",
        };
        (list_of_all(&names, "or"), closing)
    }

    /// The words of 8 for a station, if it has no supply.
    fn unsupplied(&self, station: usize) -> Option<String> {
        let count = self.file.stations.len();
        if !(0..count).any(|s| self.is_hv(s)) {
            return Some(
                "no station is an HV station: give the one that feeds the network role 1, and no customers, in its S record"
                    .into(),
            );
        }
        let reached = |from| -> Vec<usize> {
            let over = self.reached(from, |_| true);
            (0..count).filter(|&s| over[s].is_some()).collect()
        };
        let is_supplied = |s| reached(s).iter().any(|&s| self.is_hv(s));
        if station >= count || is_supplied(station) {
            return None;
        }
        let no_path = format!("{} has no closed path to an HV station", self.station(station));
        if !self.file.lines.iter().any(|line| line.stations.contains(&station)) {
            let mend = "add a line, or correct the station (from or to) of one that should end there";
            let numbers = "A station put in or taken out changes the numbers of all later ones, in the L records too";
            return Some(format!("{no_path}, since no line ends at it: {mend}. {numbers}"));
        }
        let mut joined = reached(station);
        // The lines out of there, each with whether it leads to supply.
        let ways = self.file.lines.iter().enumerate().filter_map(|(l, line)| match line.stations.map(|s| joined.contains(&s)) {
            [true, false] => Some((l, is_supplied(line.stations[1]))),
            [false, true] => Some((l, is_supplied(line.stations[0]))),
            _ => None,
        });
        let (to_supply, elsewhere): (Vec<_>, Vec<_>) = ways.partition(|way| way.1);
        let mut to_supply: Vec<usize> = to_supply.iter().map(|way| way.0).collect();
        let elsewhere: Vec<usize> = elsewhere.iter().map(|way| way.0).collect();
        if self.wrong == Some(WordsFirstWay) {
            to_supply.truncate(1);
        }
        joined.retain(|&s| s != station);
        let numbers: Vec<usize> = joined.iter().map(|s| s + 1).collect();
        let nor = match numbers[..] {
            _ if self.wrong == Some(WordsAlone) => String::new(),
            [] => String::new(),
            [one] => format!(", nor has station {one}, which is joined with it"),
            _ => format!(", nor have stations {}, which are joined with it", list_of_all(&numbers, "and")),
        };
        let (them, one) = if joined.is_empty() { ("it", "the station") } else { ("them", "one of these stations") };
        let dead_end =
            if to_supply.len() + elsewhere.len() > 0 { "" } else { ", and no line with an open end leads on from there" };
        let way = if !to_supply.is_empty() {
            let (ends, closing) = self.open_ends(&to_supply);
            format!(" Or an open end that is no normally open point should be {closing}: {ends}.")
        } else if !elsewhere.is_empty() {
            let what = "Or open ends that are no normally open points should be closed on the way to an HV station";
            let (ends, _) = self.open_ends(&elsewhere);
            format!(" {what} (state 0 plain, 1 breaker; only 1 at an HV station): what lies behind {ends} has no supply either.")
        } else {
            String::new()
        };
        let line = format!(
            "Either a line that should feed {them} is missing or ends at a wrong station (from or to): add it, a lost one where it was, or correct it."
        );
        let substation = format!("Or {one} is a substation: give it role 1 and no customers in its S record");
        Some(format!("{no_path}{nor}{dead_end}. {line}{way} {substation}"))
    }

    /// The words of 9 for the path that these name, if it passes too many breakers.
    fn series(&self, words: &str) -> Option<String> {
        let from = index_behind(words, "the path from HV station ").filter(|&s| self.is_hv(s))?;
        let to = index_behind(words, " to line ")?;
        let line = self.file.lines.get(to)?;
        let over = self.reached(from, |l| l != to);
        let near = (0..2).find(|&e| line.states[e] != OPEN && over[line.stations[e]].is_some())?;
        let mut path = self.way_back(&over, line.stations[near])?;
        path.push(to);
        let breakers = |l: usize| {
            let states = self.file.lines[l].states;
            let far = self.wrong != Some(WordsNearOnly) || l != to;
            (0..2).filter(|&e| states[e] == BREAKER && (far || e == near)).count()
        };
        let passed: usize = path.iter().map(|&l| breakers(l)).sum();
        path.retain(|&l| breakers(l) > 0);
        let series = self.file.series;
        if passed as u64 <= series {
            return None;
        }
        let what = match passed {
            0..=8 => format!(", or raise series (the fourth number of record 1) to {passed}"),
            _ => "; series can be 8 at most".into(),
        };
        let start = format!("the path from HV {} to {} passes {passed} breakers", self.station(from), self.lines(&[to], 0));
        let limit =
            format!("record 1 allows {series} in series: make some of them plain (state 0, but none that is at an HV station)");
        Some(format!("{start}, on {}, and {limit}{what}", self.all(path)))
    }
}
