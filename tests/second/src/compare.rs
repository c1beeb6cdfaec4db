//! Compares two implementations of the calls, file by file.

use crate::calls::{Calls, Command, Given, Second, Values, ANSWER, MEMBERS, TABLE, TEXT};
use crate::file::{Refusal, LONGEST};
use crate::network::Network;
use crate::random::Random;
use crate::subsets::{self, Allowed};
use crate::walk::{self, Answer};
use crate::words;
use std::cell::RefCell;
use std::collections::BTreeMap;

#[derive(Clone, Copy, Debug)]
pub enum Call {
    Check,
    Impact { line: u64 },
    Total,
    Search { members: usize },
    Report { text: usize },
    Segments { table: usize },
    Ceiling { places: u64, additions: u64 },
    Program { command: Command, given: Given },
}

impl Call {
    /// Whether it takes a search.
    fn searches(self) -> bool {
        match self {
            Call::Search { .. } | Call::Report { .. } => true,
            Call::Program { command, .. } => command.searches(),
            _ => false,
        }
    }

    /// Whether it reads a file.
    pub fn reads(self) -> bool {
        match self {
            Call::Ceiling { .. } => false,
            Call::Program { command, .. } => command.reads(),
            _ => true,
        }
    }
}

/// A call, and what the lent buffers are filled with.
#[derive(Clone, Copy, Debug)]
pub struct Asked {
    pub call: Call,
    pub fill: u64,
}

/// What a call left behind.
#[derive(PartialEq, Eq)]
struct Left {
    returned: u64,
    /// The values at its start
    answer: Vec<u64>,
    /// The members that Search writes, or the table of Segments
    numbers: Vec<u64>,
    text: Vec<u8>,
    /// What the program said on standard error
    words: Option<Vec<u8>>,
}

/// Numbers on either side of each lent buffer, which no call may touch.
const MARGIN: usize = 8;

fn filled(fill: u64, length: usize) -> Vec<u64> {
    let mut r = Random::of(fill, length as u64);
    (0..length + 2 * MARGIN).map(|_| r.any()).collect()
}

fn filled_text(fill: u64, length: usize) -> Vec<u8> {
    let mut r = Random::of(fill, length as u64);
    let mut text = Vec::with_capacity(length + 2 * MARGIN + 8);
    while text.len() < length + 2 * MARGIN {
        text.extend_from_slice(&r.any().to_le_bytes());
    }
    text.truncate(length + 2 * MARGIN);
    text
}

fn inner<T>(buffer: &mut [T]) -> &mut [T] {
    let end = buffer.len() - MARGIN;
    &mut buffer[MARGIN..end]
}

impl Left {
    /// The eight numbers lent for the values
    fn values(&self) -> &[u64] {
        &self.answer[MARGIN..self.answer.len() - MARGIN]
    }
}

/// Lent buffers and what they were filled with.
fn lend(asked: &Asked) -> Left {
    let numbers = match asked.call {
        Call::Search { members } => members,
        Call::Segments { table } => table,
        _ => 0,
    };
    let text = if let Call::Report { text } = asked.call { text } else { 0 };
    Left {
        returned: 0,
        answer: filled(asked.fill, ANSWER),
        numbers: filled(asked.fill ^ 1, numbers),
        text: filled_text(asked.fill ^ 2, text),
        words: None,
    }
}

fn ask(side: &dyn Calls, file: &[u8], asked: &Asked, mut left: Left) -> Left {
    let answer: &mut Values = inner(&mut left.answer).try_into().expect("eight numbers");
    left.returned = match asked.call {
        Call::Check => side.check(file, answer),
        Call::Impact { line } => side.impact(file, line, answer),
        Call::Total => side.total(file, answer),
        Call::Search { .. } => side.search(file, inner(&mut left.numbers), answer),
        Call::Report { .. } => side.report(file, inner(&mut left.text), answer),
        Call::Segments { .. } => side.segments(file, inner(&mut left.numbers), answer),
        Call::Ceiling { places, additions } => side.ceiling(places, additions, answer),
        Call::Program { command, given } => {
            if let Some(printed) = side.program(file, command, given) {
                (left.text, left.words) = (printed.text, printed.words);
            }
            0
        }
    };
    left
}

/// How many values this call answers.
fn value_count(call: &Call) -> usize {
    match call {
        Call::Check | Call::Program { .. } => 0,
        Call::Impact { .. } | Call::Report { .. } | Call::Segments { .. } | Call::Ceiling { .. } => 1,
        Call::Total => 2,
        Call::Search { .. } => 4,
    }
}

/// The first place where a call wrote what it must not, by what it returned: a refusal writes nothing at all.
fn stray_write(asked: &Asked, before: &Left, after: &Left) -> Option<String> {
    if matches!(asked.call, Call::Program { .. }) {
        return None;
    }
    let (mut values, mut numbers, mut text) = (0, 0, 0);
    if after.returned == 0 {
        values = value_count(&asked.call);
        match asked.call {
            Call::Search { .. } => numbers = after.values()[1] as usize,
            Call::Segments { .. } => numbers = (after.values()[0] as usize).saturating_mul(5),
            Call::Report { .. } => text = after.values()[0] as usize,
            _ => {}
        }
    }
    fn outside<T: PartialEq>(before: &[T], after: &[T], free: usize) -> Option<usize> {
        (0..before.len()).find(|&i| (i < MARGIN || i >= MARGIN.saturating_add(free)) && before[i] != after[i])
    }
    let names = ["answer", "numbers", "text"];
    let strays = [
        outside(&before.answer, &after.answer, values),
        outside(&before.numbers, &after.numbers, numbers),
        outside(&before.text, &after.text, text),
    ];
    names.iter().zip(strays).find_map(|(name, at)| at.map(|i| format!("wrote to {name}[{}]", i as i64 - MARGIN as i64)))
}

/// What is wrong with the sums of a segment table: its products sum to the total line by line, its weights to those of all lines.
fn sums_fault(network: &Network, left: &Left) -> Option<String> {
    let table = &left.numbers[MARGIN..left.numbers.len() - MARGIN];
    let entries = table.chunks_exact(5).take(left.values()[0] as usize);
    let sum = |at: usize| entries.clone().map(|entry| u128::from(entry[at])).sum::<u128>();
    let weights = network.file.lines.iter().map(|line| u128::from(line.weight)).sum::<u128>();
    let total = u128::from(network.total());
    ((sum(4), sum(2)) != (total, weights)).then(|| format!("products that sum to {total} and weights that sum to {weights}"))
}

fn shown(asked: &Asked, left: &Left) -> String {
    if matches!(asked.call, Call::Program { .. }) {
        return printable(&left.text);
    }
    let answer = left.values();
    if left.returned != 0 {
        return format!("refusal {}, record {}, answer {answer:?}", left.returned / 65_536, left.returned % 65_536);
    }
    let room = left.numbers.len() - 2 * MARGIN;
    let members = (answer[1] as usize).min(room);
    let table = (answer[0] as usize).saturating_mul(5).min(room);
    let text = (answer[0] as usize).min(left.text.len() - 2 * MARGIN);
    let mut out = format!("answer {answer:?}");
    match asked.call {
        Call::Search { .. } => out += &format!(", members {:?}", &left.numbers[MARGIN..MARGIN + members]),
        Call::Segments { .. } => out += &format!(", table {:?}", &left.numbers[MARGIN..MARGIN + table]),
        Call::Report { .. } => out += &format!(", text {}", printable(&left.text[MARGIN..MARGIN + text])),
        _ => {}
    }
    out
}

/// Bytes with `|` for a newline and other bytes that cannot be printed by their number.
pub fn printable(bytes: &[u8]) -> String {
    let shown = |&b: &u8| match b {
        b'\n' => "|".to_string(),
        b' '..=b'~' => char::from(b).to_string(),
        _ => format!("\\x{b:02x}"),
    };
    if bytes.len() > 4_000 {
        let start: String = bytes[..3_000].iter().map(shown).collect();
        return format!("{start}.. ({} bytes)", bytes.len());
    }
    bytes.iter().map(shown).collect()
}

/// A difference between the two sides, or between the engine and the third demand, what the specification asks of Search.
pub struct Difference {
    pub asked: Asked,
    pub second: String,
    pub engine: String,
}

/// Which comparisons are made.
#[derive(Clone, Copy, PartialEq, Eq)]
pub enum Against {
    Both,
    /// Only what the third demand says of Search's answer
    Demand,
}

pub struct Comparison<'a> {
    pub second: &'a Second,
    pub engine: &'a dyn Calls,
    pub against: Against,
    pub files: u64,
    pub calls: u64,
    /// Runs of the program among them, by command
    pub runs: BTreeMap<String, u64>,
    /// Answers of Search that were held to every subset of the places
    pub tried: u64,
    /// How often each refusal was given by Check, 0 for none
    pub refusals: [u64; 10],
    /// Files of which Search was spent
    pub spent: u64,
    has_program: bool,
    lent_file: RefCell<Vec<u8>>,
}

/// How many calls a file is given to.
#[derive(Clone, Copy, PartialEq, Eq)]
pub enum Depth {
    /// Check and one other
    Shallow,
    Full,
    /// The program too
    Marked,
}

/// The most visits that a search of the comparison may take.
const MOST_VISITS: u64 = 100_000;
/// The most steps for trying every subset.
const MOST_EFFORT: u64 = 1_000_000;

impl<'a> Comparison<'a> {
    pub fn new(second: &'a Second, engine: &'a dyn Calls, against: Against) -> Comparison<'a> {
        let given = Given::Input { piece: usize::MAX };
        Comparison {
            second,
            engine,
            against,
            files: 0,
            calls: 0,
            runs: BTreeMap::new(),
            tried: 0,
            refusals: [0; 10],
            spent: 0,
            has_program: against == Against::Both && engine.program(b"", Command::Unnamed, given).is_some(),
            lent_file: RefCell::new(Vec::new()),
        }
    }

    /// One call on both sides. `demand` holds a network and its allowed sets for Search's answer to be held to.
    pub fn differs(&self, file: &[u8], asked: &Asked, demand: Option<(&Network, Option<&Allowed>)>) -> Option<Difference> {
        let before = lend(asked);
        // The engine's file lies between bytes that would change the answer if they were read.
        let mut lent = self.lent_file.borrow_mut();
        lent.clear();
        lent.extend_from_slice(b"N,1,0,90,3,0,0,0,1\n");
        let start = lent.len();
        lent.extend_from_slice(file);
        let end = lent.len();
        lent.extend_from_slice(b"0\nP,1,1,1,1\nS,1,0\n");
        let mut engine = ask(self.engine, &lent[start..end], asked, lend(asked));
        let difference = |second: String, engine: String| Some(Difference { asked: *asked, second, engine });
        if let (Call::Search { .. }, Some((network, allowed)), 0) = (asked.call, demand, engine.returned) {
            let answer = engine.values();
            let count = (answer[1] as usize).min(engine.numbers.len() - 2 * MARGIN);
            let members = engine.numbers[MARGIN..MARGIN + count].iter().map(|&m| m as usize).collect();
            let answered = Answer { finished: answer[0] == 1, members, total: answer[2], visits: answer[3] };
            if let Some(fault) = subsets::fault_of(network, &answered, allowed) {
                return difference(format!("the third demand: {fault}"), shown(asked, &engine));
            }
        }
        if self.against == Against::Demand {
            return None;
        }
        if let (Call::Segments { .. }, Some((network, _)), 0) = (asked.call, demand, engine.returned) {
            if let Some(fault) = sums_fault(network, &engine) {
                return difference(fault, shown(asked, &engine));
            }
        }
        let words = engine.words.take();
        let second = ask(self.second, file, asked, lend(asked));
        if second != engine {
            return difference(shown(asked, &second), shown(asked, &engine));
        }
        if let Some(words) = words {
            if let Some(fault) = words::fault_of(file, &engine.text, &words, self.second.wrong) {
                return difference(fault, printable(&words));
            }
        }
        if let Some(stray) = stray_write(asked, &before, &engine) {
            return difference("no such write".into(), stray);
        }
        None
    }

    /// All calls on a file that the depth asks for.
    pub fn file(&mut self, file: &[u8], depth: Depth, r: &mut Random) -> Option<Difference> {
        self.files += 1;
        let network = Network::read(file, None);
        self.refusals[network.as_ref().map_or_else(|refusal| refusal.number as usize, |_| 0)] += 1;
        let mut ends_soon = true;
        let mut allowed = None;
        if let Ok(network) = &network {
            let answer = walk::search_within(network, network.file.visits.min(MOST_VISITS));
            ends_soon = answer.finished || network.file.visits <= MOST_VISITS;
            self.spent += u64::from(!answer.finished);
            if ends_soon && subsets::effort(network) <= MOST_EFFORT {
                allowed = Some(subsets::allowed_sets(network));
                self.tried += 1;
            }
        }
        for asked in plan(network.as_ref(), depth, r) {
            if !ends_soon && asked.call.searches() {
                continue;
            }
            let demand = network.as_ref().ok().map(|n| (n, allowed.as_ref()));
            let difference = self.call(file, &asked, demand);
            if difference.is_some() {
                return difference;
            }
        }
        None
    }

    /// One call on both sides, counted; none of the program if there is no program.
    fn call(&mut self, file: &[u8], asked: &Asked, demand: Option<(&Network, Option<&Allowed>)>) -> Option<Difference> {
        if let Call::Program { command, .. } = asked.call {
            if !self.has_program {
                return None;
            }
            let name = command.words().into_iter().next().unwrap_or("none".into());
            *self.runs.entry(name).or_insert(0) += 1;
        }
        self.calls += 1;
        self.differs(file, asked, demand)
    }

    /// Ceiling of all its numbers and some outside, and the program's of some of both.
    pub fn ceilings(&mut self) -> Option<Difference> {
        let outside = [66, 128, 1 << 32, (1 << 32) + 3, u64::MAX - 1, u64::MAX];
        for places in (0..=65).chain(outside) {
            for additions in (0..=17).chain([32, 64, 65]).chain(outside) {
                let asked = Asked { call: Call::Ceiling { places, additions }, fill: places ^ additions << 8 };
                let difference = self.call(b"", &asked, None);
                if difference.is_some() {
                    return difference;
                }
            }
        }
        for places in [0, 2, 10, 63, 64, 65, 4_294_967_296, 9_999_999_999] {
            for additions in [0, 1, 7, 16, 17, 4_294_967_299, 9_999_999_999] {
                let command = Command::Ceiling { places, additions };
                let asked = Asked { call: Call::Program { command, given: Given::Named }, fill: 0 };
                let difference = self.call(b"", &asked, None);
                if difference.is_some() {
                    return difference;
                }
            }
        }
        None
    }

    /// Whether a call on a changed file differs; searches that do not end soon are left out.
    pub fn still_differs(&self, file: &[u8], asked: &Asked) -> Option<Difference> {
        let network = Network::read(file, None).ok();
        let mut allowed = None;
        if let Some(network) = &network {
            if network.file.visits > MOST_VISITS && !walk::search_within(network, MOST_VISITS).finished {
                return None;
            }
            if matches!(asked.call, Call::Search { .. }) && subsets::effort(network) <= MOST_EFFORT {
                allowed = Some(subsets::allowed_sets(network));
            }
        }
        self.differs(file, asked, network.as_ref().map(|n| (n, allowed.as_ref())))
    }
}

/// The runs of the program on a file: every command, with some lines for `impact`; on a refused file `check` and every second
/// one. The file is given on standard input and by its name in turns.
fn commands(network: Result<&Network, &Refusal>, lines: u64, r: &mut Random) -> Vec<Call> {
    let mut commands = vec![Command::Total, Command::Search, Command::Segments, Command::Report, Command::Unnamed];
    let mut asked = vec![0, 1, lines / 2, lines, lines + 1];
    asked.sort_unstable();
    asked.dedup();
    commands.extend(asked.into_iter().map(|line| Command::Impact { line }));
    if network.is_err() {
        let first = r.below(2);
        commands = commands.into_iter().skip(first).step_by(2).collect();
    }
    commands.push(Command::Check);
    let first = r.below(2);
    let given = |i: usize| if (i + first) % 2 == 1 { Given::Named } else { Given::Input { piece: usize::MAX } };
    commands.into_iter().enumerate().map(|(i, command)| Call::Program { command, given: given(i) }).collect()
}

/// The calls on a file.
fn plan(network: Result<&Network, &Refusal>, depth: Depth, r: &mut Random) -> Vec<Asked> {
    let lines = network.map_or_else(|_| r.between(0, 9), |n| n.file.lines.len() as u64);
    let mut calls = vec![Call::Check];
    let search = Call::Search { members: MEMBERS };
    let report = Call::Report { text: TEXT };
    let segments = Call::Segments { table: TABLE };
    match depth {
        Depth::Shallow => match r.below(6) {
            0 => calls.push(Call::Impact { line: r.pick(&[0, 1, 2, lines, lines + 1, u64::MAX]) }),
            1 => calls.push(Call::Total),
            2 => calls.push(search),
            3 => calls.push(report),
            4 => calls.push(segments),
            _ => {}
        },
        Depth::Full | Depth::Marked => {
            calls.extend([Call::Total, search, report, segments]);
            calls.extend([0, lines, lines + 1, u64::MAX].map(|line| Call::Impact { line }));
            if network.is_ok() {
                let step = 1 + lines as usize / 12;
                calls.extend((1..lines).step_by(step).map(|line| Call::Impact { line }));
                calls.push(Call::Impact { line: lines + r.pick(&[1, 2, 256, 1 << 16, 1 << 32, 1 << 63]) });
            }
            if r.once_in(3) || depth == Depth::Marked {
                calls.push(Call::Search { members: r.pick(&[0, 1, 2, 14, 15, 15, 17, 17, 18, 31, 64, 100]) });
                calls.push(Call::Report { text: r.pick(&[0, 1, 100, TEXT - 1, TEXT - 1, TEXT + 1, TEXT + 1, LONGEST + 5_000]) });
                calls.push(Call::Segments { table: r.pick(&[0, 1, 5, 100, TABLE - 1, TABLE - 1, TABLE + 1, TABLE + 1, 9_000]) });
            }
            if depth == Depth::Marked || r.once_in(16) {
                let piece = r.pick(&[1, 2, 7, 100, 4_096, usize::MAX, usize::MAX, usize::MAX]);
                calls.push(Call::Program { command: Command::Unnamed, given: Given::Input { piece } });
            }
            if depth == Depth::Marked || r.once_in(80) {
                calls.extend(commands(network, lines, r));
            } else if network.is_err_and(|refusal| [6, 7, 9].contains(&refusal.number)) {
                // These have words that are held to the network.
                calls.push(Call::Program { command: Command::Check, given: Given::Named });
            }
        }
    }
    calls.into_iter().map(|call| Asked { call, fill: r.any() >> 8 }).collect()
}
