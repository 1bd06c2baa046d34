//! Answers the questions of docs/LIMITS.md by the Rust, the second implementation of the walk, and the requests' rules.

use checks::judge;
use checks::moves::{self, Move};
use checks::query::{Kind, Query};
use std::process::ExitCode;
use table::Body;

const USAGE: &str = "usage: limits < limits/questions > limits/answers
Reads one query a line, as the fixed list has them, or a move: m, a cylinder's line with settings, then the kind, the clearance,
start, end and steps. Prints what is expected of each. Nothing of the library is asked.";

/// A whole number stands as the f64 with its bits.
fn whole(x: f64) -> u32 {
    u32::try_from(x.to_bits()).expect("a whole number")
}

/// The line of a move behind its letter.
fn parse_move(line: &str) -> Option<Move> {
    let words: Vec<&str> = line.split(' ').collect();
    let (front, back) = words.split_at_checked(words.len().checked_sub(9)?)?;
    let query = Query::parse(&front.join(" ")).filter(|query| query.kind == Kind::SetCylinder)?;
    let number = |word: &&str| u64::from_str_radix(word, 16).ok().map(f64::from_bits);
    let numbers: Vec<f64> = back.iter().map(number).collect::<Option<_>>()?;
    let body = match whole(numbers[0]) {
        2 => Body::Sphere(query.array()),
        3 => Body::Box(query.array()),
        4 => Body::Cylinder(query.array()),
        _ => return None,
    };
    Some(Move {
        section: query.lists[0].clone(),
        body,
        clearance: numbers[1],
        start: [numbers[2], numbers[3], numbers[4]],
        end: [numbers[5], numbers[6], numbers[7]],
        steps: whole(numbers[8]),
        settings: query.settings(),
    })
}

/// Distance, its step, whether it collides, the first colliding step or 0, boxes.
fn move_line(given: &Move) -> String {
    match moves::expected(given) {
        Ok(moves::Report { distance, step, colliding, boxes }) => {
            let (collides, first) = (u32::from(colliding.is_some()), colliding.unwrap_or(0));
            format!("{:016x} {step} {collides} {first} {boxes}", (distance + 0.0).to_bits())
        }
        Err(number) => format!("refused {number}"),
    }
}

fn answer(line: &str) -> Option<String> {
    match line.strip_prefix("m ") {
        Some(rest) => parse_move(rest).map(|given| move_line(&given)),
        None => Query::parse(line).map(|query| judge::expected(&query).line()),
    }
}

fn main() -> ExitCode {
    arguments::words(USAGE);
    let lines = std::io::read_to_string(std::io::stdin()).expect("text on standard input");
    for line in lines.lines() {
        match answer(line) {
            Some(answer) => println!("{answer}"),
            None => arguments::refuse(&format!("no question: {line}"), USAGE),
        }
    }
    ExitCode::SUCCESS
}

#[cfg(test)]
mod tests {
    #[test]
    fn the_committed_answers_are_these() {
        let (questions, answers) = (include_str!("../../../limits/questions"), include_str!("../../../limits/answers"));
        assert_eq!(questions.lines().count(), answers.lines().count());
        for (question, expected) in questions.lines().zip(answers.lines()) {
            assert_eq!(super::answer(question).as_deref(), Some(expected), "{question}");
        }
    }
}
