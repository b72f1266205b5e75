//! Times two programs that read a capture: `measure OURS SECOND CAPTURE..`. Both must print
//! the same for each capture. The capture is a file and the output is thrown away; a time is
//! the middle one of RUNS, from the start of the process to its end. Each run goes through
//! all captures and both programs, so that other load falls on all of them. Prints a table
//! in Markdown.

use std::env;
use std::fs::{self, File};
use std::io::{self, Write};
use std::path::Path;
use std::process::{Command, ExitCode, Stdio};
use std::thread;
use std::time::{Duration, Instant};

const RUNS: usize = 11;

const HEADING: &str = "\
| capture | bytes | records | ours, ms | second, ms | ours/second | ours, ns a record | second, ns a record | ours, peak KB | second, peak KB |
|---|--:|--:|--:|--:|--:|--:|--:|--:|--:|";

fn main() -> ExitCode {
    let arguments: Vec<_> = env::args().skip(1).collect();
    let [ours, second, captures @ ..] = &arguments[..] else {
        eprintln!("usage: measure OURS SECOND CAPTURE..");
        return ExitCode::from(2);
    };
    match measure([ours, second], captures) {
        Ok(rows) => {
            println!("{HEADING}\n{}", rows.join("\n"));
            ExitCode::SUCCESS
        }
        Err(error) => {
            eprintln!("measure: {error}");
            ExitCode::FAILURE
        }
    }
}

fn measure(programs: [&String; 2], captures: &[String]) -> io::Result<Vec<String>> {
    let mut times = vec![[[Duration::ZERO; RUNS]; 2]; captures.len()];
    for run in 0..RUNS {
        for (capture, times) in captures.iter().zip(&mut times) {
            for (program, times) in programs.iter().zip(times) {
                times[run] = time(program, capture)?;
            }
        }
    }
    let rows = captures.iter().zip(times);
    rows.map(|(capture, times)| row(programs, capture, times))
        .collect()
}

fn row(programs: [&String; 2], capture: &str, times: [[Duration; RUNS]; 2]) -> io::Result<String> {
    let [ours, second] = [text(programs[0], capture)?, text(programs[1], capture)?];
    if ours != second {
        let different = format!("the programs print different texts for {capture}");
        return Err(io::Error::other(different));
    }
    // A line for each record, and one last line.
    let records = ours.iter().filter(|&&byte| byte == b'\n').count() - 1;
    let seconds = times.map(|mut times| {
        times.sort();
        times[RUNS / 2].as_secs_f64()
    });
    let ratio = seconds[0] / seconds[1];
    let [ours, second] = seconds.map(|time| format!("{:.1}", time * 1e3));
    let [ours_each, second_each] = seconds.map(|time| match records {
        0 => "-".into(),
        _ => format!("{:.1}", time * 1e9 / records as f64),
    });
    let bytes = fs::read(capture)?;
    let [ours_peak, second_peak] = [peak(programs[0], &bytes)?, peak(programs[1], &bytes)?];
    let name = Path::new(capture).file_stem().unwrap_or_default().display();
    let bytes = bytes.len();
    Ok(format!(
        "| {name} | {bytes} | {records} | {ours} | {second} | {ratio:.2} \
         | {ours_each} | {second_each} | {ours_peak} | {second_peak} |"
    ))
}

fn time(program: &str, capture: &str) -> io::Result<Duration> {
    let mut command = Command::new(program);
    command.stdin(File::open(capture)?).stdout(Stdio::null());
    let start = Instant::now();
    command.status()?;
    Ok(start.elapsed())
}

fn text(program: &str, capture: &str) -> io::Result<Vec<u8>> {
    let output = Command::new(program).stdin(File::open(capture)?).output()?;
    if !output.status.success() {
        let failed = format!("{program}, {capture}: {}", output.status);
        return Err(io::Error::other(failed));
    }
    Ok(output.stdout)
}

/// The most memory, in KB, that the program has had in use when it has read the whole
/// capture and waits for more.
fn peak(program: &str, capture: &[u8]) -> io::Result<String> {
    let mut command = Command::new(program);
    let mut child = command
        .stdin(Stdio::piped())
        .stdout(Stdio::null())
        .spawn()?;
    let mut input = child.stdin.take().expect("a pipe");
    input.write_all(capture)?;
    thread::sleep(Duration::from_millis(200));
    let status = fs::read_to_string(format!("/proc/{}/status", child.id()))?;
    drop(input);
    child.wait()?;
    let peak = status.lines().find_map(|line| line.strip_prefix("VmHWM:"));
    let peak = peak.ok_or(io::Error::other("no VmHWM in the status of the process"))?;
    Ok(peak.trim().trim_end_matches(" kB").into())
}
