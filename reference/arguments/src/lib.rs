//! The words that a program is called with, and how it ends. `--help` prints the usage and ends with exit code 0; what the program
//! does not know ends with exit code 2, a difference with 1.

use std::process::{ExitCode, exit};

/// The words after the program's name.
pub fn words(usage: &str) -> Vec<String> {
    let words: Vec<String> = std::env::args().skip(1).collect();
    if words.iter().any(|word| word == "--help") {
        println!("{usage}");
        exit(0);
    }
    words
}

/// Says what is wrong, and how the program is called.
pub fn refuse(problem: &str, usage: &str) -> ! {
    eprintln!("{problem}\n{usage}");
    exit(2)
}

/// Whole numbers, at most as many as there are defaults; the defaults stand for those that are not given.
pub fn numbers<const N: usize>(words: &[String], defaults: [u64; N]) -> Result<[u64; N], String> {
    let mut numbers = defaults;
    if let Some(word) = words.get(N) {
        return Err(format!("{word} is one too many"));
    }
    for (number, word) in numbers.iter_mut().zip(words) {
        *number = word.parse().map_err(|_| format!("{word} is no whole number"))?;
    }
    Ok(numbers)
}

/// Says what was found, if something was.
pub fn ended(done: Result<(), String>) -> ExitCode {
    match done {
        Ok(()) => ExitCode::SUCCESS,
        Err(problem) => {
            println!("{problem}");
            ExitCode::FAILURE
        }
    }
}

#[cfg(test)]
mod tests {
    use super::numbers;

    #[test]
    fn numbers_and_defaults() {
        let words = |text: &str| text.split_whitespace().map(String::from).collect::<Vec<_>>();
        assert_eq!(numbers(&words(""), [7, 8]), Ok([7, 8]));
        assert_eq!(numbers(&words("1"), [7, 8]), Ok([1, 8]));
        assert_eq!(numbers(&words("1 2"), [7, 8]), Ok([1, 2]));
        assert_eq!(numbers(&words("1 2 3"), [7, 8]), Err("3 is one too many".into()));
        assert_eq!(numbers(&words("1 x"), [7, 8]), Err("x is no whole number".into()));
        assert_eq!(numbers(&words("-1"), [7]), Err("-1 is no whole number".into()));
    }
}
