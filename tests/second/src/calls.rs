//! The seven calls, in the form of the engine's C interface, and the commands of the program.

use crate::file::{refuse, Refusal};
use crate::mistakes::Mistake::*;
use crate::mistakes::Wrong;
use crate::network::Network;
use crate::text;
use crate::walk::{self, Answer};
use std::cell::{OnceCell, RefCell};
use std::rc::Rc;

/// The numbers that a call is lent for its values.
pub const ANSWER: usize = 8;
pub type Values = [u64; ANSWER];

/// The least lengths of the other lent buffers.
pub const MEMBERS: usize = 16;
pub const TEXT: usize = 32_768;
pub const TABLE: usize = 7_680;

/// Each call gives 0 and writes its values at the start of `answer`, or it gives the refusal's number * 65,536 + its record and
/// writes nothing.
pub trait Calls {
    fn check(&self, file: &[u8], answer: &mut Values) -> u64;
    fn impact(&self, file: &[u8], line: u64, answer: &mut Values) -> u64;
    fn total(&self, file: &[u8], answer: &mut Values) -> u64;
    fn search(&self, file: &[u8], members: &mut [u64], answer: &mut Values) -> u64;
    fn report(&self, file: &[u8], text: &mut [u8], answer: &mut Values) -> u64;
    fn segments(&self, file: &[u8], table: &mut [u64], answer: &mut Values) -> u64;
    fn ceiling(&self, places: u64, additions: u64, answer: &mut Values) -> u64;
    /// What the program prints for a command on a file; none if there is no program.
    fn program(&self, file: &[u8], command: Command, given: Given) -> Option<Printed>;
}

/// What the program is asked for.
#[derive(Clone, Copy, PartialEq, Eq, Hash, Debug)]
pub enum Command {
    /// No command, which is a report
    Unnamed,
    Report,
    Check,
    Impact {
        line: u64,
    },
    Total,
    Search,
    Segments,
    Ceiling {
        places: u64,
        additions: u64,
    },
}

impl Command {
    /// The words behind the program's name, without a file.
    pub fn words(self) -> Vec<String> {
        match self {
            Command::Unnamed => Vec::new(),
            Command::Report => vec!["report".into()],
            Command::Check => vec!["check".into()],
            Command::Impact { line } => vec!["impact".into(), line.to_string()],
            Command::Total => vec!["total".into()],
            Command::Search => vec!["search".into()],
            Command::Segments => vec!["segments".into()],
            Command::Ceiling { places, additions } => vec!["ceiling".into(), places.to_string(), additions.to_string()],
        }
    }

    /// Whether it takes a search.
    pub fn searches(self) -> bool {
        matches!(self, Command::Unnamed | Command::Report | Command::Search)
    }

    /// Whether it reads a file.
    pub fn reads(self) -> bool {
        !matches!(self, Command::Ceiling { .. })
    }
}

/// How the program is given a file.
#[derive(Clone, Copy, PartialEq, Eq, Hash, Debug)]
pub enum Given {
    /// On standard input, in pieces of so many bytes, or of more if these would be very many
    Input { piece: usize },
    /// By its name
    Named,
}

/// What the program printed.
#[derive(Clone, PartialEq, Eq)]
pub struct Printed {
    pub text: Vec<u8>,
    /// Standard error; the second implementation has none
    pub words: Option<Vec<u8>>,
}

/// The network of a file and what was worked out of it.
struct Worked {
    bytes: Vec<u8>,
    network: Result<Network, Refusal>,
    search: OnceCell<Answer>,
    report: OnceCell<Vec<u8>>,
}

/// The second implementation, with a mistake or none. It keeps the last file.
#[derive(Default)]
pub struct Second {
    pub wrong: Wrong,
    last: RefCell<Option<Rc<Worked>>>,
}

impl Second {
    pub fn new(wrong: Wrong) -> Second {
        Second { wrong, last: RefCell::new(None) }
    }

    fn worked(&self, file: &[u8]) -> Rc<Worked> {
        let mut last = self.last.borrow_mut();
        if let Some(worked) = last.as_ref().filter(|w| w.bytes == file) {
            return worked.clone();
        }
        let network = Network::read(file, self.wrong);
        let worked = Rc::new(Worked { bytes: file.to_vec(), network, search: OnceCell::new(), report: OnceCell::new() });
        *last = Some(worked.clone());
        worked
    }

    /// Writes an answer's values, and gives what the call returns.
    fn put<const N: usize>(&self, answer: &mut Values, result: Result<[u64; N], Refusal>) -> u64 {
        match result {
            Ok(values) => {
                let first = usize::from(self.wrong == Some(ValuesLater));
                answer[first..first + N].copy_from_slice(&values);
                if self.wrong == Some(AnswerCleared) {
                    answer[N..].fill(0);
                }
                u64::from(self.wrong == Some(AnsweredOne))
            }
            Err(Refusal { number, record }) => {
                if self.wrong == Some(RefusalInAnswer) {
                    answer[..2].copy_from_slice(&[number, record]);
                }
                match self.wrong {
                    Some(RecordBeforeNumber) => record * 65_536 + number,
                    Some(RecordLeftOut) => number * 65_536,
                    Some(RefusalAnswered) => 0,
                    _ => number * 65_536 + record,
                }
            }
        }
    }

    fn least_members(&self) -> usize {
        match self.wrong {
            Some(FifteenMembers) => MEMBERS - 1,
            Some(SeventeenMembers) => MEMBERS + 1,
            _ => MEMBERS,
        }
    }

    fn least_text(&self) -> usize {
        match self.wrong {
            Some(ShorterText) => TEXT - 1,
            Some(LongerText) => TEXT + 1,
            _ => TEXT,
        }
    }

    fn least_table(&self) -> usize {
        match self.wrong {
            Some(TableShorter) => TABLE - 1,
            Some(TableLonger) => TABLE + 1,
            _ => TABLE,
        }
    }

    /// Refusal 10 and those of the file, in turn.
    fn refused(&self, worked: &Worked, short: bool) -> Result<(), Refusal> {
        let file = worked.network.as_ref().map(|_| ()).map_err(|r| *r);
        let ten = if short { refuse(10, 0) } else { Ok(()) };
        if self.wrong == Some(TenLast) {
            file.and(ten)
        } else {
            ten.and(file)
        }
    }

    fn impact_of(&self, file: &[u8], line: u64) -> Result<[u64; 1], Refusal> {
        let worked = self.worked(file);
        if self.wrong == Some(LineFirst) && line == 0 {
            return refuse(2, 0);
        }
        let network = worked.network.as_ref().map_err(|r| *r)?;
        let lines = network.file.lines.len() as u64;
        if self.wrong == Some(LineNought) && line == 0 || self.wrong == Some(LineAbove) && line == lines + 1 {
            return Ok([0]);
        }
        if line == 0 || line > lines {
            return refuse(2, 0);
        }
        Ok([network.impact(line as usize - 1, &[])])
    }

    fn search_of(&self, file: &[u8], members: &mut [u64]) -> Result<[u64; 4], Refusal> {
        let worked = self.worked(file);
        if let Err(refusal) = self.refused(&worked, members.len() < self.least_members()) {
            if self.wrong == Some(RefusalWrites) && !members.is_empty() {
                members[0] = 0;
            }
            return Err(refusal);
        }
        let network = worked.network.as_ref().map_err(|r| *r)?;
        let found = worked.search.get_or_init(|| walk::search(network));
        if found.finished || self.wrong != Some(MembersUnwritten) {
            for (slot, &member) in members.iter_mut().zip(&found.members) {
                *slot = member as u64;
            }
        }
        if self.wrong == Some(MembersCleared) {
            members[found.members.len()..].fill(0);
        }
        Ok([u64::from(found.finished), found.members.len() as u64, found.total, found.visits])
    }

    fn report_of(&self, file: &[u8], text: &mut [u8]) -> Result<[u64; 1], Refusal> {
        let worked = self.worked(file);
        self.refused(&worked, text.len() < self.least_text())?;
        let network = worked.network.as_ref().map_err(|r| *r)?;
        let printed = worked.report.get_or_init(|| text::report(network));
        text[..printed.len()].copy_from_slice(printed);
        if self.wrong == Some(TextCleared) {
            text[printed.len()] = 0;
        }
        Ok([printed.len() as u64])
    }

    fn segments_of(&self, file: &[u8], table: &mut [u64]) -> Result<[u64; 1], Refusal> {
        let worked = self.worked(file);
        self.refused(&worked, table.len() < self.least_table())?;
        let network = worked.network.as_ref().map_err(|r| *r)?;
        let entries = network.segments();
        let numbers = entries.as_flattened();
        table[..numbers.len()].copy_from_slice(numbers);
        if self.wrong == Some(TableCleared) && numbers.len() < table.len() {
            table[numbers.len()] = 0;
        }
        Ok([if self.wrong == Some(EntriesAsNumbers) { numbers.len() } else { entries.len() } as u64])
    }

    fn ceiling_of(&self, places: u64, additions: u64) -> Result<[u64; 1], Refusal> {
        let most = if self.wrong == Some(CeilingShort) { 63 } else { 64 };
        if places > most || additions > 16 {
            return refuse(2, 0);
        }
        let least = if self.wrong == Some(CeilingExact) { additions } else { 0 };
        Ok([(least..=additions).map(|size| sets_of(places, size)).sum()])
    }

    /// The rows that a command prints of a file.
    fn rows_of(&self, file: &[u8], command: Command) -> Result<Vec<u8>, Refusal> {
        if let Command::Ceiling { places, additions } = command {
            let sets = match self.ceiling_of(places, additions) {
                Err(_) if self.wrong == Some(CeilingAnyNumbers) => 0,
                sets => sets?[0],
            };
            return Ok(text::sets(places, additions, sets, self.wrong));
        }
        let worked = self.worked(file);
        let network = worked.network.as_ref().map_err(|r| *r)?;
        let search = || worked.search.get_or_init(|| walk::search(network));
        Ok(match command {
            Command::Check => text::accepted(self.wrong),
            Command::Impact { line } => {
                let customers = match self.impact_of(file, line) {
                    Err(_) if self.wrong == Some(NoLineNought) => 0,
                    Ok(_) if self.wrong == Some(LineBefore) && line > 1 => self.impact_of(file, line - 1)?[0],
                    customers => customers?[0],
                };
                text::impact(line, customers, self.wrong)
            }
            Command::Total => text::total(network),
            Command::Search => text::plan(network, search()),
            Command::Segments => text::segments(network),
            _ => worked.report.get_or_init(|| text::report(network)).clone(),
        })
    }
}

/// How many sets of just `size` places there are, by products.
fn sets_of(places: u64, size: u64) -> u64 {
    if size > places {
        return 0;
    }
    let mut sets = 1u128;
    for i in 0..size {
        sets = sets * u128::from(places - i) / u128::from(i + 1);
    }
    sets as u64
}

impl Calls for Second {
    fn check(&self, file: &[u8], answer: &mut Values) -> u64 {
        let worked = self.worked(file);
        self.put(answer, worked.network.as_ref().map(|_| []).map_err(|r| *r))
    }

    fn impact(&self, file: &[u8], line: u64, answer: &mut Values) -> u64 {
        self.put(answer, self.impact_of(file, line))
    }

    fn total(&self, file: &[u8], answer: &mut Values) -> u64 {
        let worked = self.worked(file);
        let result = worked.network.as_ref().map(|n| [n.total(), n.figure(n.total())]);
        self.put(answer, result.map_err(|r| *r))
    }

    fn search(&self, file: &[u8], members: &mut [u64], answer: &mut Values) -> u64 {
        self.put(answer, self.search_of(file, members))
    }

    fn report(&self, file: &[u8], text: &mut [u8], answer: &mut Values) -> u64 {
        self.put(answer, self.report_of(file, text))
    }

    fn segments(&self, file: &[u8], table: &mut [u64], answer: &mut Values) -> u64 {
        self.put(answer, self.segments_of(file, table))
    }

    fn ceiling(&self, places: u64, additions: u64, answer: &mut Values) -> u64 {
        self.put(answer, self.ceiling_of(places, additions))
    }

    fn program(&self, file: &[u8], command: Command, _given: Given) -> Option<Printed> {
        let text = match self.rows_of(file, command) {
            Ok(rows) => rows,
            Err(refusal) if self.wrong == Some(RefusedReport) && command == Command::Unnamed => {
                [b"A,0,0\n".to_vec(), text::refused(refusal, self.wrong)].concat()
            }
            Err(_) if self.wrong == Some(RefusedSegments) && command == Command::Segments => b"G,0\n".to_vec(),
            Err(refusal) => text::refused(refusal, self.wrong),
        };
        Some(Printed { text, words: None })
    }
}
