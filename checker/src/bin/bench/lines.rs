//! Short lines through pipes: the program beside the checker's own `lines`.

use checker::feed::Feed;
use checker::process::Process;
use checker::scene::{reads, Stream};

const ROUNDS: usize = 9;

/// Prints a table: for each stream the median rate of both programs, from their
/// start to their end, taken in turns.
pub fn table() {
    let Some(quay) = Process::from_environment() else {
        println!("Left out: QUAY_PROGRAM does not name the program.");
        return;
    };
    let Some(lines) = own_program() else {
        println!("Left out: cargo build --release --bin lines was not done.");
        return;
    };
    println!("| stream | lines | MB | checker MB/s | quay MB/s | checker lines/s | quay lines/s | quay / checker |");
    println!("|:-------|------:|---:|-------------:|----------:|----------------:|-------------:|---------------:|");
    for (name, stream) in streams() {
        let (lines_seconds, quay_seconds) = measure(&lines, &quay, &stream);
        let (count, megabytes) = (stream.lines as f64, stream.input.len() as f64 / 1e6);
        println!(
            "| {name} | {count} | {megabytes:.1} | {:.1} | {:.1} | {:.0} | {:.0} | {:.2} |",
            megabytes / lines_seconds,
            megabytes / quay_seconds,
            count / lines_seconds,
            count / quay_seconds,
            lines_seconds / quay_seconds
        );
    }
}

/// `lines`, if it was built beside this program.
fn own_program() -> Option<Process> {
    let path = std::env::current_exe().ok()?.with_file_name("lines");
    path.exists().then(|| Process::new(path))
}

fn streams() -> [(&'static str, Stream); 3] {
    [
        (
            "R, nearly all hits",
            reads(1_024, 128, 100, false, 1_000_000),
        ),
        (
            "R and I, frames free",
            reads(1_024, 128, 100, true, 1_000_000),
        ),
        (
            "R and I, each arrival steals",
            reads(64, 1_024, 100, false, 200_000),
        ),
    ]
}

/// Seconds for the stream, by both programs.
fn measure(lines: &Process, quay: &Process, stream: &Stream) -> (f64, f64) {
    for process in [lines, quay] {
        let output = process.output(&Feed::whole(&stream.input));
        let path = process.path().display();
        assert!(
            output.as_ref() == Ok(&stream.output),
            "{path} answers otherwise"
        );
    }
    let seconds = |process: &Process| {
        let time = process.time(&stream.input);
        time.expect("it has answered once").as_secs_f64()
    };
    let (mut by_lines, mut by_quay) = (Vec::new(), Vec::new());
    for _ in 0..ROUNDS {
        by_lines.push(seconds(lines));
        by_quay.push(seconds(quay));
    }
    (super::median(by_lines), super::median(by_quay))
}
