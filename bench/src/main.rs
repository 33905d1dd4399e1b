//! The proved library beside a hand-written one: the same answers, call by call, and the cost of each.

mod benchmark;
mod differential;
mod export;
mod images;
mod library;
mod loom;
mod memories;
mod old_boards;
mod order;
mod placement;
mod reading;
mod replay;
mod repository;
mod trace;
mod write_out;

use picl_bench::{call, handwritten, interface, random, record, sizes};
use std::process::ExitCode;

const USAGE: &str = "\
picl-bench test [--seed SEED] [--calls COUNT] [--only GROUP:HISTORY]
    compare library and hand-written Rust call by call
picl-bench bench [--table]
    time both
picl-bench bench --row NAME --side library|handwritten --repeat COUNT
    play one side of one row, for a tool that counts instructions; prints the number of measured calls
picl-bench rows
    the names of the rows
picl-bench hex FOLDER
    write what each side exports of some boards, and the bytes of their lines; prints the names of the files, by pairs
picl-bench hex-in FILE LINES WRITTEN
    read a file of Intel HEX into a board of so many lines by both sides, up to the first record that is refused, and write the
    bytes of its lines; prints how many records were taken, and the name of the last answer
picl-bench convert FOLDER
    write images of boards in the old layout, and what loomconvert must write for each; prints the names
picl-bench loom
    what the loom's work asks of a board, and what it takes to persist fifteen epochs of it
picl-bench loom --day
    a day of the loom's work at three rates of scan calls, epoch by epoch: the epochs that wait, and the log's entries
picl-bench scripts
    replay every script of the repository over the hand-written Rust and compare with its expected output
picl-bench expected SCRIPT
    what the replay of one script prints
picl-bench traces [--write]
    hold every stored trace, and what it must print, to the hand-written Rust; or write them anew
picl-bench trace FILE [EPOCHS]
    write the loom's work as a trace; prints what its run must print, then the board stores by kind
picl-bench pace TRACE SCRIPT
    write a million calls of the loom as a trace and as a script; prints what the trace's run must print, and their number
picl-bench order play
    play a history, for a tool that records stores; prints where board and mark are
picl-bench order check PLACES RECORD
    hold its record to the stores that were due";

fn main() -> ExitCode {
    let words: Vec<String> = std::env::args().skip(1).collect();
    match run(&words) {
        Ok(()) => ExitCode::SUCCESS,
        Err(text) => {
            eprintln!("{text}");
            ExitCode::FAILURE
        }
    }
}

fn run(words: &[String]) -> Result<(), String> {
    let (command, flags) = words.split_first().ok_or(USAGE)?;
    match command.as_str() {
        "test" => differential::run(&test_options(flags)?),
        "bench" => run_benchmark(flags),
        "rows" => {
            benchmark::print_row_names();
            Ok(())
        }
        "hex" => run_hex(flags),
        "hex-in" => run_hex_in(flags),
        "convert" => run_convert(flags),
        "loom" => run_loom(flags),
        "order" => run_order(flags),
        "scripts" => replay::compare_with_stored(),
        "expected" => run_expected(flags),
        "traces" => run_traces(flags),
        "trace" => run_trace(flags),
        "pace" => run_pace(flags),
        _ => Err(USAGE.to_string()),
    }
}

fn test_options(flags: &[String]) -> Result<differential::Options, String> {
    let mut options = differential::Options {
        seed: differential::DEFAULT_SEED,
        calls: differential::DEFAULT_CALLS,
        only: None,
    };
    for pair in flags.chunks(2) {
        match pair {
            [flag, value] if flag == "--seed" => options.seed = number(value)?,
            [flag, value] if flag == "--calls" => options.calls = number(value)?,
            [flag, value] if flag == "--only" => {
                let (group, history) = value.split_once(':').ok_or(USAGE)?;
                options.only = Some((group.to_string(), number(history)?));
            }
            _ => return Err(USAGE.to_string()),
        }
    }
    Ok(options)
}

fn run_benchmark(flags: &[String]) -> Result<(), String> {
    let flags: Vec<&str> = flags.iter().map(String::as_str).collect();
    match flags[..] {
        [] => benchmark::print_times(),
        ["--table"] => benchmark::print_table(),
        ["--row", row, "--side", side, "--repeat", count] => benchmark::play_row(row, side, number(count)?)?,
        _ => return Err(USAGE.to_string()),
    }
    Ok(())
}

fn run_hex(flags: &[String]) -> Result<(), String> {
    match flags {
        [folder] => export::write_exports(folder),
        _ => Err(USAGE.to_string()),
    }
}

fn run_hex_in(flags: &[String]) -> Result<(), String> {
    match flags {
        [file, lines, written] => reading::read_file(file, number(lines)?, written),
        _ => Err(USAGE.to_string()),
    }
}

fn run_convert(flags: &[String]) -> Result<(), String> {
    match flags {
        [folder] => images::write_images(folder),
        _ => Err(USAGE.to_string()),
    }
}

fn run_loom(flags: &[String]) -> Result<(), String> {
    match flags {
        [] => loom::print_figures(),
        [day] if day == "--day" => loom::print_day(),
        _ => Err(USAGE.to_string()),
    }
}

fn run_order(flags: &[String]) -> Result<(), String> {
    match flags {
        [play] if play == "play" => {
            order::play();
            Ok(())
        }
        [check, places, record] if check == "check" => order::check(places, record),
        _ => Err(USAGE.to_string()),
    }
}

fn run_expected(flags: &[String]) -> Result<(), String> {
    match flags {
        [script] => replay::print_output(script),
        _ => Err(USAGE.to_string()),
    }
}

fn run_traces(flags: &[String]) -> Result<(), String> {
    match flags {
        [] => trace::compare_with_stored(),
        [write] if write == "--write" => trace::write_stored(),
        _ => Err(USAGE.to_string()),
    }
}

fn run_trace(flags: &[String]) -> Result<(), String> {
    match flags {
        [file] => trace::write_trace(file, trace::DEFAULT_EPOCHS),
        [file, epochs] => trace::write_trace(file, number(epochs)?),
        _ => Err(USAGE.to_string()),
    }
}

fn run_pace(flags: &[String]) -> Result<(), String> {
    match flags {
        [trace, script] => trace::write_timed(trace, script),
        _ => Err(USAGE.to_string()),
    }
}

fn number(text: &str) -> Result<u64, String> {
    text.parse().map_err(|_| format!("{text} is not a number\n{USAGE}"))
}
