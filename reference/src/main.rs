//! `reference SEED CALLS STDIN STDOUT` writes a scenario for the console to the file STDIN and the
//! answers that the model expects to the file STDOUT.

mod choices;
mod console;
mod galley;
mod model;
mod orders;
mod random;
mod scenario;
mod seen;
mod states;
mod strings;
mod text;

use std::env;
use std::fs;
use std::process::ExitCode;

const USAGE: &str = "usage: reference SEED CALLS STDIN STDOUT
  SEED    a whole number; the same one always gives the same scenario
  CALLS   how many calls to make at least, from 1 to 10,000,000
  STDIN   file for the lines that the console reads
  STDOUT  file for the answers that it should give";

const MOST_CALLS: usize = 10_000_000;

struct Order {
    seed: u64,
    calls: usize,
    stdin: String,
    stdout: String,
}

fn order_of(arguments: &[String]) -> Result<Order, String> {
    let [seed, calls, stdin, stdout] = arguments else {
        return Err(format!(
            "four arguments are needed, not {}",
            arguments.len()
        ));
    };
    let seed = seed
        .parse()
        .map_err(|_| format!("SEED is no whole number: {seed}"))?;
    let calls = calls
        .parse()
        .ok()
        .filter(|number| (1..=MOST_CALLS).contains(number))
        .ok_or_else(|| format!("CALLS is no whole number from 1 to 10000000: {calls}"))?;
    if stdin == stdout {
        return Err("STDIN and STDOUT must be two files".to_string());
    }
    Ok(Order {
        seed,
        calls,
        stdin: stdin.clone(),
        stdout: stdout.clone(),
    })
}

fn save(path: &str, text: &str) -> Result<(), String> {
    fs::write(path, text).map_err(|error| format!("cannot write {path}: {error}"))
}

fn main() -> ExitCode {
    let arguments: Vec<String> = env::args().skip(1).collect();
    let order = match order_of(&arguments) {
        Ok(order) => order,
        Err(reason) => {
            eprintln!("reference: {reason}\n{USAGE}");
            return ExitCode::from(2);
        }
    };
    let made = scenario::scenario(order.seed, order.calls);
    let saved = save(&order.stdin, &made.input).and_then(|()| save(&order.stdout, &made.answers));
    if let Err(reason) = saved {
        eprintln!("reference: {reason}");
        return ExitCode::from(1);
    }
    println!("{} calls", made.seen.calls);
    print!("{}", made.seen);
    ExitCode::SUCCESS
}

#[cfg(test)]
mod tests {
    use super::*;

    fn order(words: &str) -> Result<Order, String> {
        let arguments: Vec<String> = words.split(' ').map(str::to_string).collect();
        order_of(&arguments)
    }

    #[test]
    fn four_good_arguments_make_an_order() {
        let good = order("7 30000 in out").ok().unwrap();
        assert_eq!((good.seed, good.calls), (7, 30_000));
        assert_eq!((good.stdin.as_str(), good.stdout.as_str()), ("in", "out"));
    }

    #[test]
    fn bad_arguments_are_told() {
        for words in [
            "7 30000 in",
            "7 30000 in out more",
            "x 30000 in out",
            "-1 30000 in out",
            "7 0 in out",
            "7 many in out",
            "7 10000001 in out",
            "7 30000 same same",
        ] {
            assert!(order(words).is_err(), "{words}");
        }
    }
}
