//! Radial rules (refusals 4 to 9), paths to the HV station, impact and total.

use crate::file::{refuse, File, Refusal, BREAKER, OPEN, PLAIN};
use crate::mistakes::Mistake::*;
use crate::mistakes::Wrong;
use std::borrow::Cow;

/// An end: twice its line's index, plus 0 for end 1 or 1 for end 2.
pub type End = usize;

pub fn end_at(line: usize, end: usize) -> End {
    2 * line + end
}

/// A radial network.
pub struct Network {
    pub file: File,
    /// Each station's path to its HV station, as the ends passed, nearest first.
    pub station_paths: Vec<Vec<End>>,
    /// Each line's path to its HV station, its near end first.
    pub line_paths: Vec<Vec<End>>,
    /// The customers of all stations whose path passes the end.
    pub behind: Vec<u64>,
    pub wrong: Wrong,
}

/// What is joined: stations, then lines. A closed end joins two of these.
struct Joins {
    stations: usize,
    /// For each vertex its closed ends with the vertex on their other side.
    ends: Vec<Vec<(End, usize)>>,
}

impl Joins {
    fn of(file: &File, wrong: Wrong) -> Joins {
        let stations = file.stations.len();
        let mut ends = vec![Vec::new(); stations + file.lines.len()];
        let mut pairs = Vec::new();
        for (l, line) in file.lines.iter().enumerate() {
            let mut closed = line.states.map(|s| s != OPEN);
            let pair = (line.stations[0].min(line.stations[1]), line.stations[0].max(line.stations[1]));
            if closed == [true, true] {
                if wrong == Some(ParallelNoCycle) && pairs.contains(&pair) {
                    closed[1] = false;
                }
                if wrong == Some(SelfLineNoCycle) && pair.0 == pair.1 {
                    closed[1] = false;
                }
                pairs.push(pair);
            }
            for e in 0..2 {
                if closed[e] {
                    ends[line.stations[e]].push((end_at(l, e), stations + l));
                    ends[stations + l].push((end_at(l, e), line.stations[e]));
                }
            }
        }
        Joins { stations, ends }
    }

    /// The vertices that lie on or between closed paths: what stays when vertices with one end are taken away again and again.
    fn core(&self) -> Vec<usize> {
        let mut degree: Vec<usize> = self.ends.iter().map(Vec::len).collect();
        let mut gone = vec![false; degree.len()];
        let mut loose: Vec<usize> = (0..degree.len()).filter(|&v| degree[v] <= 1).collect();
        while let Some(v) = loose.pop() {
            if gone[v] {
                continue;
            }
            gone[v] = true;
            for &(_, other) in &self.ends[v] {
                if !gone[other] {
                    degree[other] -= 1;
                    if degree[other] <= 1 {
                        loose.push(other);
                    }
                }
            }
        }
        (0..gone.len()).filter(|&v| !gone[v]).collect()
    }

    /// The path from each vertex that `source` reaches, back to it; `source` has the empty one.
    fn paths_to(&self, source: usize) -> Vec<Option<Vec<End>>> {
        let mut paths = vec![None; self.ends.len()];
        paths[source] = Some(Vec::new());
        let mut reached = vec![source];
        let mut next = 0;
        while next < reached.len() {
            let v = reached[next];
            next += 1;
            for &(end, other) in &self.ends[v] {
                if paths[other].is_none() {
                    let back = paths[v].as_ref().map_or(&[][..], |p| &p[..]);
                    let mut path = Vec::with_capacity(back.len() + 1);
                    path.push(end);
                    path.extend_from_slice(back);
                    paths[other] = Some(path);
                    reached.push(other);
                }
            }
        }
        paths
    }
}

impl Network {
    /// The network of these bytes, or the first of the refusals 1 to 9.
    pub fn read(bytes: &[u8], wrong: Wrong) -> Result<Network, Refusal> {
        Network::of(File::read(bytes, wrong)?, wrong)
    }

    fn of(file: File, wrong: Wrong) -> Result<Network, Refusal> {
        let both_open = |l: &usize| file.lines[*l].states == [OPEN, OPEN];
        let plain_at_hv = |l: &usize| {
            let line = &file.lines[*l];
            (0..2).any(|e| line.states[e] == PLAIN && file.stations[line.stations[e]].hv)
                && !(wrong == Some(HangingPlain) && line.states.contains(&OPEN))
        };
        let mut lines: Vec<usize> = (0..file.lines.len()).collect();
        if wrong == Some(LastLineNamed) {
            lines.reverse();
        }
        let four = lines.iter().copied().find(both_open).map(|l| (4, l));
        let five = lines.iter().copied().find(plain_at_hv).map(|l| (5, l));
        let first = match wrong {
            Some(FiveBeforeFour) => five.or(four),
            Some(FourFiveByLine) => match (four, five) {
                (Some(a), Some(b)) => Some(if a.1 <= b.1 { a } else { b }),
                _ => four.or(five),
            },
            _ => four.or(five),
        };
        if let Some((number, l)) = first {
            return refuse(number, file.record_of_line(l));
        }

        let joins = Joins::of(&file, wrong);
        let hv: Vec<usize> = (0..file.stations.len()).filter(|&s| file.stations[s].hv).collect();
        let floods: Vec<Vec<Option<Vec<End>>>> = hv.iter().map(|&s| joins.paths_to(s)).collect();
        let supplied = |v: usize| floods.iter().any(|paths| paths[v].is_some());

        let core = joins.core();
        let six = match wrong {
            Some(CycleSuppliedOnly) => core.iter().any(|&v| supplied(v)),
            _ => !core.is_empty(),
        };
        let seven = hv.iter().enumerate().any(|(i, _)| hv.iter().enumerate().any(|(j, &s)| i != j && floods[i][s].is_some()));
        let mut unsupplied = (0..file.stations.len()).filter(|&s| !supplied(s));
        let eight = if wrong == Some(LastUnsupplied) { unsupplied.next_back() } else { unsupplied.next() };

        let mut found = Vec::new();
        if six {
            found.push((6, 0));
        }
        if seven {
            found.push((7, 0));
        }
        if let Some(s) = eight {
            found.push((8, file.record_of_station(s)));
        }
        let order = match wrong {
            Some(SevenBeforeSix) => [7, 6, 8],
            Some(EightBeforeSeven) => [6, 8, 7],
            Some(EightBeforeSix) => [8, 6, 7],
            _ => [6, 7, 8],
        };
        let fault = order.iter().find_map(|n| found.iter().find(|f| f.0 == *n)).copied();
        if let Some((number, record)) = fault {
            if !(wrong == Some(NineFirst) && number == 8) {
                return refuse(number, record);
            }
        }

        let mut paths: Vec<Vec<End>> = vec![Vec::new(); joins.ends.len()];
        for flood in floods {
            for (v, path) in flood.into_iter().enumerate() {
                if let Some(path) = path {
                    paths[v] = path;
                }
            }
        }
        let line_paths = paths.split_off(joins.stations);
        let station_paths = paths;
        let mut behind = vec![0; 2 * file.lines.len()];
        for (s, path) in station_paths.iter().enumerate() {
            for &end in path {
                behind[end] += file.stations[s].customers;
            }
        }
        if wrong == Some(OpenEndCounted) {
            for (l, line) in file.lines.iter().enumerate() {
                if let Some(e) = line.states.iter().position(|&s| s == OPEN) {
                    for &end in &line_paths[l] {
                        behind[end] += file.stations[line.stations[e]].customers;
                    }
                }
            }
        }
        let network = Network { file, station_paths, line_paths, behind, wrong };
        if !network.within_series(&[]) {
            return refuse(9, 0);
        }
        if let Some((number, record)) = fault {
            return refuse(number, record);
        }
        Ok(network)
    }

    pub fn is_breaker(&self, end: End, added: &[End]) -> bool {
        self.file.lines[end / 2].states[end % 2] == BREAKER || added.contains(&end)
    }

    fn at_hv(&self, end: End) -> bool {
        self.file.stations[self.file.lines[end / 2].stations[end % 2]].hv
    }

    /// The paths from HV stations that the series rule looks at.
    pub fn series_paths(&self) -> impl Iterator<Item = &Vec<End>> {
        let lines = if self.wrong == Some(SeriesToStations) { &[][..] } else { &self.line_paths[..] };
        self.station_paths.iter().chain(lines)
    }

    /// Whether the series rule leaves this end out.
    pub fn out_of_series(&self, end: End) -> bool {
        match self.wrong {
            Some(SeriesWithoutHvEnd) => self.at_hv(end),
            Some(SeriesNearOnly) => self.line_paths[end / 2].first() != Some(&end),
            _ => false,
        }
    }

    /// The series rule, with breakers added.
    pub fn within_series(&self, added: &[End]) -> bool {
        let breakers =
            |path: &[End]| path.iter().filter(|&&e| self.is_breaker(e, added) && !self.out_of_series(e)).count() as u64;
        if self.wrong == Some(SeriesAnyPath) {
            let counts: Vec<&Vec<End>> = self.station_paths.iter().chain(&self.line_paths).collect();
            for a in &counts {
                for b in &counts {
                    let shared = a.iter().rev().zip(b.iter().rev()).take_while(|(x, y)| x == y).count();
                    if breakers(&a[..a.len() - shared]) + breakers(&b[..b.len() - shared]) > self.file.series {
                        return false;
                    }
                }
            }
        }
        self.series_paths().all(|path| breakers(path) <= self.file.series)
    }

    /// The path that a fault on the line is traced along.
    fn fault_path(&self, line: usize) -> Cow<'_, [End]> {
        let path = &self.line_paths[line];
        match self.wrong {
            Some(NearIsEndOne) if self.file.lines[line].states[0] != OPEN => {
                let from = self.file.lines[line].stations[0];
                let mut other = vec![end_at(line, 0)];
                other.extend_from_slice(&self.station_paths[from]);
                Cow::Owned(other)
            }
            Some(OwnEndNotMet) if path.len() > 1 => Cow::Borrowed(&path[1..]),
            _ => Cow::Borrowed(path),
        }
    }

    /// The breaker end that trips for a fault on the line, with breakers added.
    fn trips(&self, line: usize, added: &[End]) -> Option<End> {
        let path = self.fault_path(line);
        let trips = path.iter().copied().find(|&e| self.is_breaker(e, added));
        if self.wrong == Some(FarEndClears) {
            let near = self.line_paths[line].first().copied();
            let far = near.map(|e| e ^ 1).filter(|&e| self.file.lines[line].states[e % 2] != OPEN && self.is_breaker(e, added));
            return far.or(trips);
        }
        trips
    }

    /// The segment table: an entry for each breaker end, by line and end.
    pub fn segments(&self) -> Vec<[u64; 5]> {
        let mut ends: Vec<End> = (0..2 * self.file.lines.len()).filter(|&e| self.is_breaker(e, &[])).collect();
        match self.wrong {
            Some(SegmentsByEnd) => ends.sort_by_key(|&e| (e % 2, e)),
            Some(SegmentsLastLost) => drop(ends.pop()),
            _ => {}
        }
        let mut table: Vec<[u64; 5]> = ends.into_iter().map(|end| self.segment(end)).collect();
        match self.wrong {
            Some(SegmentsTrippingOnly) => table.retain(|entry| entry[2] != 0),
            Some(SegmentsEndFirst) => table.iter_mut().for_each(|entry| entry.swap(0, 1)),
            _ => {}
        }
        table
    }

    /// The entry of a breaker end, five numbers: all lines are looked through for those that it trips for.
    fn segment(&self, end: End) -> [u64; 5] {
        let counts = |line: usize| match self.wrong {
            Some(SegmentsAllBehind) => self.line_paths[line].contains(&end),
            _ => self.trips(line, &[]) == Some(end),
        };
        let weight: u64 = (0..self.file.lines.len()).filter(|&l| counts(l)).map(|l| self.file.lines[l].weight).sum();
        let customers = match self.wrong {
            Some(SegmentsToNext) => self.customers_to_next(end, &[]),
            Some(SegmentsIdleEmpty) if weight == 0 => 0,
            _ => self.behind[end],
        };
        [end as u64 / 2 + 1, end as u64 % 2 + 1, weight, customers, weight * customers]
    }

    /// The customers of the stations for which a breaker is the first on their path.
    fn customers_to_next(&self, breaker: End, added: &[End]) -> u64 {
        let near = |path: &Vec<End>| path.iter().copied().find(|&e| self.is_breaker(e, added)) == Some(breaker);
        let stations = self.file.stations.iter().zip(&self.station_paths);
        stations.filter(|(_, path)| near(path)).map(|(s, _)| s.customers).sum()
    }

    /// The customers that a fault on the line cuts off, with breakers added.
    pub fn impact(&self, line: usize, added: &[End]) -> u64 {
        let Some(trips) = self.trips(line, added) else { return 0 };
        if self.wrong == Some(UpToNextBreaker) {
            return self.customers_to_next(trips, added);
        }
        self.behind[trips]
    }

    /// The total with breakers added, line by line.
    pub fn total_with(&self, added: &[End]) -> u64 {
        (0..self.file.lines.len()).map(|l| self.file.lines[l].weight * self.impact(l, added)).sum()
    }

    pub fn total(&self) -> u64 {
        self.total_with(&[])
    }

    pub fn figure(&self, total: u64) -> u64 {
        if self.wrong == Some(FigureWithoutMinutes) {
            return total;
        }
        self.file.minutes * total
    }

    /// The ends of places given by index.
    pub fn ends_of(&self, places: &[usize]) -> Vec<End> {
        places.iter().map(|&p| end_at(self.file.places[p].line, self.file.places[p].end)).collect()
    }

    /// Whether the place is at the far end of its line.
    pub fn is_far(&self, place: usize) -> bool {
        let p = &self.file.places[place];
        self.line_paths[p.line].first() != Some(&end_at(p.line, p.end))
    }
}
