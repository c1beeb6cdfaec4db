//! Compares the engine with the second implementation.
//!
//! compare [--cases N] [--seed S] [--program FILE]     the comparison; --file FILE is written for the program to read
//! compare --case NUMBER [--seed S] ..                 one file by chance alone
//! compare --mistake NUMBER ..                         the same, with a mistake in the second implementation
//! compare --mutations [--cases N] [--seed S]          each mistake in turn; all must be found
//! compare --print                                     what `breakers` must print of standard input
//! compare --time                                      how long Check, Total, Segments and Report of standard input take
//!
//! Where the engine is not linked, the second implementation without mistakes stands in for it, and a mistake must be named; it
//! says nothing on standard error, so that mistakes of these words are not found.

use second::calls::{Calls, Command, Given, Second, ANSWER};
use second::compare::{printable, Against, Comparison, Depth, Difference};
use second::fixed::{self, Named};
use second::mistakes::{self, MISTAKES};
use second::random::Random;
use second::shrink::shrink;
use std::io::{Read, Write};
use std::os::unix::fs::FileExt;
use std::path::PathBuf;
use std::process::ExitCode;
use std::time::{Duration, Instant};

struct Options {
    cases: u64,
    seed: u64,
    program: Option<PathBuf>,
    /// Where a file that the program is given by its name is written
    file: PathBuf,
    mistake: usize,
    mutations: bool,
    print: bool,
    time: bool,
    /// The one file by chance to look at
    case: Option<u64>,
    /// A file in which the number of the file at hand is kept, should the engine end the process
    at: Option<std::fs::File>,
}

fn options() -> Result<Options, String> {
    let mut options = Options {
        cases: 15_000,
        seed: 1,
        program: None,
        file: std::env::temp_dir().join("compare.net"),
        mistake: 0,
        mutations: false,
        print: false,
        time: false,
        case: None,
        at: None,
    };
    let mut args = std::env::args().skip(1);
    while let Some(name) = args.next() {
        match name.as_str() {
            "--mutations" => options.mutations = true,
            "--print" => options.print = true,
            "--time" => options.time = true,
            _ => {}
        }
        if name == "--mutations" || name == "--print" || name == "--time" {
            continue;
        }
        let value = args.next().ok_or(format!("{name} wants a value"))?;
        let number = || value.parse::<u64>().map_err(|_| format!("{name} wants a number, not {value}"));
        match name.as_str() {
            "--cases" => options.cases = number()?,
            "--seed" => options.seed = number()?,
            "--case" => options.case = Some(number()?),
            "--mistake" => options.mistake = number()? as usize,
            "--program" => options.program = Some(value.into()),
            "--file" => options.file = value.into(),
            "--at" => options.at = Some(std::fs::File::create(&value).map_err(|e| format!("{value}: {e}"))?),
            _ => return Err(format!("{name} is no option")),
        }
    }
    Ok(options)
}

#[cfg(engine)]
fn engine(options: &Options) -> Box<dyn Calls> {
    Box::new(second::engine::Engine {
        program: options.program.clone(),
        named: options.file.clone(),
        // every mistake asks for the same runs
        kept: options.mutations.then(Default::default),
    })
}

#[cfg(not(engine))]
fn engine(_: &Options) -> Box<dyn Calls> {
    Box::new(Second::new(None))
}

/// A file that showed a difference, with its name.
struct Found {
    name: String,
    file: Vec<u8>,
    difference: Difference,
}

/// Runs all files in order: those with answers in the specification, then those by rule and by chance in turns.
fn run(comparison: &mut Comparison, options: &Options, rules: &(Named, Named)) -> Option<Found> {
    let one = |comparison: &mut Comparison, name: &dyn Fn() -> String, number: usize, file: &[u8], depth: Depth| {
        if let Some(at) = &options.at {
            let _ = at.write_all_at(format!("{:<200}\n", name()).as_bytes(), 0);
        }
        let mut r = Random::of(options.seed ^ 0xca11, number as u64);
        let difference = comparison.file(file, depth, &mut r)?;
        Some(Found { name: name(), file: file.to_vec(), difference })
    };
    let by_chance = |comparison: &mut Comparison, case: u64| {
        let (kind, file) = fixed::by_chance(options.seed, case);
        one(comparison, &|| format!("seed {}, case {case}, {kind}", options.seed), case as usize, &file, Depth::Full)
    };
    if let Some(case) = options.case {
        return by_chance(comparison, case);
    }
    for (number, (name, text, _)) in fixed::marked().into_iter().chain(fixed::readings()).enumerate() {
        let found = one(comparison, &|| format!("case {name}"), number, &fixed::bytes_of(&text), Depth::Marked);
        if found.is_some() {
            return found;
        }
    }
    if let Some(difference) = comparison.ceilings() {
        return Some(Found { name: "Ceiling".into(), file: Vec::new(), difference });
    }
    let (few, many) = rules;
    let [few_each, many_each] = [few, many].map(|files| files.len().div_ceil(options.cases.max(1) as usize));
    let (mut few, mut many) = (few.iter().enumerate(), many.iter().enumerate());
    for case in 0..options.cases {
        let found = by_chance(comparison, case);
        if found.is_some() {
            return found;
        }
        let few = few.by_ref().take(few_each).map(|f| (f, Depth::Marked));
        let many = many.by_ref().take(many_each).map(|f| (f, Depth::Shallow));
        for ((number, (name, file)), depth) in few.chain(many) {
            let found = one(comparison, &|| name.clone(), number, file, depth);
            if found.is_some() {
                return found;
            }
        }
    }
    None
}

fn print_found(comparison: &Comparison, found: &Found) {
    let Found { name, file, difference } = found;
    println!("DIFFERENCE at {name}");
    println!("  call:   {:?}", difference.asked);
    println!("  second: {}", difference.second);
    println!("  engine: {}", difference.engine);
    println!("  file:   {}", printable(file));
    if !difference.asked.call.reads() {
        return;
    }
    let smallest = shrink(file, Duration::from_secs(30), &mut |f| comparison.still_differs(f, &difference.asked).is_some());
    if let Some(difference) = comparison.still_differs(&smallest, &difference.asked) {
        println!("  shrunk: {}", printable(&smallest));
        println!("  second: {}", difference.second);
        println!("  engine: {}", difference.engine);
    }
}

/// Holds both sides to the answers that stand beside their cases.
fn marked_cases(sides: [(&str, &dyn Calls); 2]) -> bool {
    let mut right = true;
    for (name, text, expected) in fixed::marked().into_iter().chain(fixed::readings()) {
        for (side, calls) in sides {
            let file = fixed::bytes_of(&text);
            let mut buffer = vec![0; 32_768];
            let mut answer = [0; ANSWER];
            let reported = match calls.report(&file, &mut buffer, &mut answer) {
                0 => buffer[..answer[0] as usize].to_vec(),
                refusal => format!("X,{},{}\n", refusal / 65_536, refusal % 65_536).into_bytes(),
            };
            let given = Given::Input { piece: usize::MAX };
            let printed = calls.program(&file, Command::Unnamed, given).map(|p| p.text);
            for (by, printed) in [("Report", Some(reported)), ("breakers", printed)] {
                if let Some(printed) = printed.filter(|p| !fixed::agrees(p, expected)) {
                    println!("case {name}: {side}, {by}: {} and not {expected}", printable(&printed));
                    right = false;
                }
            }
        }
    }
    for (side, calls) in sides {
        let mut answer = [9; ANSWER];
        let returned = calls.ceiling(2, 1, &mut answer);
        if (returned, answer[0]) != (0, 3) {
            println!("case l: {side}: {returned}, {answer:?}");
            right = false;
        }
    }
    right
}

fn compare(options: &Options) -> bool {
    let second = Second::new(mistakes::numbered(options.mistake));
    let engine = engine(options);
    if options.mistake == 0 && !marked_cases([("second", &second), ("engine", &*engine)]) {
        return false;
    }
    let mut comparison = Comparison::new(&second, &*engine, Against::Both);
    let found = run(&mut comparison, options, &fixed::by_rule());
    if let Some(found) = &found {
        print_found(&comparison, found);
    }
    let refusals: Vec<String> = comparison.refusals.iter().enumerate().map(|(n, count)| format!("{n}: {count}")).collect();
    println!("files by refusal (0: accepted): {}; spent: {}", refusals.join(", "), comparison.spent);
    let runs: Vec<String> = comparison.runs.iter().map(|(command, count)| format!("{command}: {count}")).collect();
    println!("runs of the program by command: {}", runs.join(", "));
    println!(
        "compare: {} files, {} calls compared, {} of them runs of the program, {} searches held to every subset; {}",
        comparison.files,
        comparison.calls,
        comparison.runs.values().sum::<u64>(),
        comparison.tried,
        if found.is_some() { "1 DIFFERENCE" } else { "no difference" }
    );
    found.is_none()
}

/// Each mistake in turn: against the engine, and whether the third demand (`subsets`) alone finds it in a search that makes it.
fn mutations(options: &Options) -> bool {
    let engine = engine(options);
    let rules = fixed::by_rule();
    let mut missed = 0;
    println!("{:>3}  {:>7}  {:>8}  mistake", "no.", "files", "demanded");
    for (i, (mistake, text)) in MISTAKES.iter().enumerate() {
        let second = Second::new(Some(*mistake));
        let mut comparison = Comparison::new(&second, &*engine, Against::Both);
        let found = run(&mut comparison, options, &rules);
        let mut demand = Comparison::new(&second, &second, Against::Demand);
        let by_demand = if mistake.in_search() { run(&mut demand, options, &rules) } else { None };
        let after = |found: bool, files: u64| if found { files.to_string() } else { "-".into() };
        missed += usize::from(found.is_none());
        let (all, alone) = (after(found.is_some(), comparison.files), after(by_demand.is_some(), demand.files));
        println!("{:>3}  {all:>7}  {alone:>8}  {text}{}", i + 1, if found.is_some() { "" } else { "  NOT FOUND" });
    }
    println!("mutations: {} mistakes, {} found", MISTAKES.len(), MISTAKES.len() - missed);
    missed == 0
}

/// The second implementation as a program.
fn print() -> bool {
    let mut file = Vec::new();
    let read = std::io::stdin().read_to_end(&mut file);
    let printed = Second::new(None).program(&file, Command::Unnamed, Given::Named).map_or(Vec::new(), |p| p.text);
    read.and_then(|_| std::io::stdout().write_all(&printed)).is_ok()
}

/// Nanoseconds of one run.
fn nanoseconds(run: &mut dyn FnMut()) -> u128 {
    let start = Instant::now();
    run();
    start.elapsed().as_nanos()
}

/// For each of four calls its name, the engine's time and that of the second implementation, in nanoseconds.
fn time(options: &Options) -> bool {
    let mut file = Vec::new();
    let read = std::io::stdin().read_to_end(&mut file);
    let engine = engine(options);
    let mut answer = [0; ANSWER];
    let mut text = vec![0; 32_768];
    let mut table = vec![0; 7_680];
    // the fastest of many runs, one of each side in turn
    let both = |name: &str, call: &mut dyn FnMut(&dyn Calls)| {
        let (mut ours, mut second) = (u128::MAX, u128::MAX);
        let begin = Instant::now();
        while begin.elapsed() < Duration::from_secs(1) {
            ours = ours.min(nanoseconds(&mut || call(&*engine)));
            // a new one each time, since it keeps the last file
            second = second.min(nanoseconds(&mut || call(&Second::new(None))));
        }
        println!("{name} {ours} {second}");
    };
    both("Check", &mut |calls| assert_eq!(calls.check(&file, &mut answer), 0));
    both("Total", &mut |calls| assert_eq!(calls.total(&file, &mut answer), 0));
    both("Segments", &mut |calls| assert_eq!(calls.segments(&file, &mut table, &mut answer), 0));
    both("Report", &mut |calls| assert_eq!(calls.report(&file, &mut text, &mut answer), 0));
    read.is_ok()
}

fn main() -> ExitCode {
    let options = match options() {
        Ok(options) => options,
        Err(message) => {
            eprintln!("compare: {message}");
            return ExitCode::from(2);
        }
    };
    if !cfg!(engine) && !options.print && !options.mutations && options.mistake == 0 {
        eprintln!("compare: the engine is not linked");
        return ExitCode::from(2);
    }
    let right = if options.print {
        print()
    } else if options.time {
        time(&options)
    } else if options.mutations {
        mutations(&options)
    } else {
        compare(&options)
    };
    if right {
        ExitCode::SUCCESS
    } else {
        ExitCode::FAILURE
    }
}
