//! Times calls, for the program `tests/calls` of the tree: the words of the command line are the program desk, how many rounds
//! there are, how many calls in each, and the line. It prints the seconds of each round, a line each.

use std::time::Instant;

use desk_client::{Desk, Fault};

fn main() -> Result<(), Fault> {
    let words: Vec<String> = std::env::args().collect();
    let [_, program, rounds, calls, line] = &words[..] else {
        panic!("usage: calls PROGRAM ROUNDS CALLS LINE");
    };
    let (rounds, calls): (usize, usize) = (rounds.parse().expect("a number"), calls.parse().expect("a number"));
    let mut desk = Desk::open(program, None)?;
    desk.ask("desk 512 342 20")?;
    desk.ask("window document 40 60 200 120 1 1 \"A\"")?;
    for _ in 0..rounds {
        let began = Instant::now();
        for _ in 0..calls {
            if line == "image" {
                desk.image()?;
            } else {
                desk.ask(line)?;
            }
        }
        println!("{:.9}", began.elapsed().as_secs_f64());
    }
    Ok(())
}
