//! Compares the port with the published Rust (exact hypot) and with the table of refusals, on inputs from a seed.

use checks::answer::Answer;
use checks::query::{Kind, Query};
use checks::random::Random;
use checks::{generate, judge, near, port, shrink};
use std::collections::BTreeMap;
use std::process::ExitCode;
use std::time::Instant;

const USAGE: &str = "usage: compare [--seed N] [--accepted N] [--near N] [--kinds LETTERS,..]
       compare --write LIST ANSWERS [--seed N]     writes the fixed list and its answers
       compare --list LIST ANSWERS                 runs the port on a list
Compares the port with the published Rust and with the table of refusals: for each kind N accepted queries at each
threshold (--near, 100000 unless given) and N more (--accepted, 1000000). Exit code 1 at a difference.";

struct Options {
    seed: u64,
    accepted: u64,
    near: u64,
    kinds: Vec<Kind>,
    write: Option<(String, String)>,
    list: Option<(String, String)>,
}

fn options() -> Result<Options, String> {
    let mut options =
        Options { seed: 1, accepted: 1_000_000, near: 100_000, kinds: Kind::all(), write: None, list: None };
    let mut words = arguments::words(USAGE).into_iter();
    while let Some(word) = words.next() {
        let mut value = || words.next().ok_or(format!("{word} needs a value"));
        let number = |text: String| text.parse::<u64>().map_err(|_| format!("{text} is no number"));
        match word.as_str() {
            "--seed" => options.seed = number(value()?)?,
            "--accepted" => options.accepted = number(value()?)?,
            "--near" => options.near = number(value()?)?,
            "--kinds" => options.kinds = value()?.split(',').map(kind).collect::<Result<_, _>>()?,
            "--write" => options.write = Some((value()?, value()?)),
            "--list" => options.list = Some((value()?, value()?)),
            _ => return Err(format!("{word} is unknown")),
        }
    }
    Ok(options)
}

/// A kind by its letters.
fn kind(letters: &str) -> Result<Kind, String> {
    let known = Kind::all().into_iter().find(|kind| kind.letters() == letters);
    known.ok_or(format!("{letters} is no kind"))
}

fn main() -> ExitCode {
    let options = options().unwrap_or_else(|problem| arguments::refuse(&problem, USAGE));
    arguments::ended(match (&options.write, &options.list) {
        (Some((list, answers)), _) => checks::fixed::write(options.seed, list, answers),
        (_, Some((list, answers))) => replay(list, answers),
        _ => compare(&options),
    })
}

fn differs(query: &Query) -> bool {
    !port::answer(query).same(&judge::expected(query))
}

/// Both answers to a query; an error tells of the smallest query on which they differ.
fn check(query: &Query) -> Result<Answer, String> {
    let expected = judge::expected(query);
    if port::answer(query).same(&expected) {
        return Ok(expected);
    }
    let small = shrink::shrink(query.clone(), differs);
    Err([
        "DIFFERENCE".into(),
        format!("found at  {}", query.line()),
        format!("smallest  {}", small.line()),
        format!("lists     {:?}", small.lists),
        format!("numbers   {:?}, space {}", small.numbers, small.space),
        format!("expected  {}  {:?}", judge::expected(&small).line(), judge::expected(&small)),
        format!("port      {}  {:?}", port::answer(&small).line(), port::answer(&small)),
    ]
    .join("\n  "))
}

fn compare(options: &Options) -> Result<(), String> {
    println!("seed {}", options.seed);
    let start = Instant::now();
    let mut total = 0;
    for &kind in &options.kinds {
        let mut outcomes = Outcomes::default();
        for (i, threshold) in near::thresholds(kind).iter().enumerate() {
            let mut random = Random::new(options.seed, 1 + i as u64 + 100 * kind as u64);
            let before = outcomes.accepted;
            while outcomes.accepted < before + options.near {
                outcomes.count(&check(&threshold.query(&mut random))?);
            }
            let near = outcomes.accepted - before;
            println!("  {:2}  {near} accepted within 4 ulps of: {}", kind.letters(), threshold.name);
        }
        let mut random = Random::new(options.seed, 100 * kind as u64);
        let goal = outcomes.accepted + options.accepted;
        let step = (goal / 4).max(1);
        while outcomes.accepted < goal {
            outcomes.count(&check(&generate::query(&mut random, kind))?);
            if outcomes.accepted % step == 0 && outcomes.last_was_accepted {
                println!(
                    "  {:2}  {} accepted, {:.0} s",
                    kind.letters(),
                    outcomes.accepted,
                    start.elapsed().as_secs_f64()
                );
            }
        }
        total += outcomes.print(kind);
    }
    println!("{total} queries, 0 differences, {:.0} s", start.elapsed().as_secs_f64());
    Ok(())
}

/// Totals of a kind. Which cylinders were walked, and which walks cut, is told by the Rust's notes.
#[derive(Default)]
struct Outcomes {
    accepted: u64,
    last_was_accepted: bool,
    walked: u64,
    cut: u64,
    counts: BTreeMap<String, u64>,
}

impl Outcomes {
    fn count(&mut self, answer: &Answer) {
        self.last_was_accepted = !answer.refused();
        self.accepted += u64::from(self.last_was_accepted);
        self.walked += u64::from(answer.walked());
        self.cut += u64::from(answer.cut());
        *self.counts.entry(answer.outcome()).or_default() += 1;
    }

    fn print(&self, kind: Kind) -> u64 {
        let total = self.counts.values().sum();
        println!("{kind:?}: {total} queries, {} accepted", self.accepted);
        if self.walked > 0 {
            println!("    {} accepted ones were walked, and {} of the walks were cut", self.walked, self.cut);
        }
        for (outcome, count) in &self.counts {
            println!("    {count:>9}  {outcome}");
        }
        total
    }
}

/// Runs the port on a list and compares its lines with the answers.
fn replay(list: &str, answers: &str) -> Result<(), String> {
    let read = |path: &str| std::fs::read_to_string(path).map_err(|error| format!("{path}: {error}"));
    let (list, answers) = (read(list)?, read(answers)?);
    if list.lines().count() != answers.lines().count() {
        return Err("list and answers differ in length".into());
    }
    for (line, expected) in list.lines().zip(answers.lines()) {
        let query = Query::parse(line).ok_or(format!("not a query: {line}"))?;
        let answer = port::answer(&query).line();
        if answer != expected {
            return Err(format!("DIFFERENCE\n  query     {line}\n  expected  {expected}\n  port      {answer}"));
        }
    }
    println!("{} lines, 0 differences", list.lines().count());
    Ok(())
}
