// Asks node 1 for a reset and does what is allowed until nothing is: rustc -O session.rs && ./session PROGRAM TOPOLOGY
use std::error::Error;
use std::io::{BufRead, BufReader, Write};
use std::process::{Command, ExitCode, Stdio};

fn run(program: &str, topology: &str) -> Result<String, Box<dyn Error>> {
    let mut process = Command::new(program)
        .args(["session", topology])
        .stdin(Stdio::piped())
        .stdout(Stdio::piped())
        .spawn()
        .map_err(|error| format!("{program}: {error}"))?;
    let mut input = process.stdin.take().unwrap();
    let mut lines = BufReader::new(process.stdout.take().unwrap()).lines();
    let mut number = 0;
    let mut step = |command: &str| -> Result<Vec<String>, Box<dyn Error>> {
        number += 2; // the second line is no command: its answer ends that of the first
        let _ = input.write_all(format!("{command}\n?\n").as_bytes()); // where it fails, the answer is missing too
        let mark = format!("bad line {number}");
        let mut answer = Vec::new();
        while let Some(line) = lines.next().transpose()? {
            if line == mark {
                return Ok(answer);
            }
            answer.push(line);
        }
        answer.push(process.wait()?.to_string());
        Err(format!("{program} ended: {}", answer.join(", ")).into())
    };
    // A node can always be asked for a reset, and an application such as `token` always has an action. All other events
    // come to an end: those of one reset.
    let endless = |line: &String| line.starts_with("move request ") || line.starts_with("move act ");
    let mut answer = step("request 1")?;
    while let Some(next) = step("moves")?.into_iter().find(|line| !endless(line)) {
        answer = step(next.trim_start_matches("move "))?;
    }
    Ok(answer.join("\n"))
}

fn main() -> ExitCode {
    let words: Vec<String> = std::env::args().skip(1).collect();
    let [program, topology] = &words[..] else {
        eprintln!("usage: session PROGRAM TOPOLOGY");
        return ExitCode::from(2);
    };
    match run(program, topology) {
        Ok(answer) => println!("{answer}"),
        Err(error) => {
            eprintln!("session: {error}");
            return ExitCode::FAILURE;
        }
    }
    ExitCode::SUCCESS
}
