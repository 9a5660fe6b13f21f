//! Answers lines from standard input with the ported Rust: the calls of the replay format, and single
//! functions. oracle/README.md says what each line means.
mod places;
mod reports;
mod single;
mod stand;
mod text;

use std::io::{BufRead, BufReader, BufWriter, Write};

/// The settings come from the calls alone.
fn clear_environment() {
    for name in [
        "CZSC_MIN_BI_LEN",
        "czsc_min_bi_len",
        "CZSC_MAX_BI_NUM",
        "czsc_max_bi_num",
    ] {
        // No other thread runs yet.
        unsafe { std::env::remove_var(name) };
    }
}

/// The answer to one line, or None where the line is no call.
fn answer(driver: &mut stand::Driver, line: &str) -> Option<String> {
    let fields: Vec<&str> = line.split(' ').collect();
    match fields[0] {
        name @ ("n" | "N") => driver.fresh(name, &fields[1..]),
        "b" => driver.feed(&fields[1..]),
        "d" if fields.len() == 1 => Some(driver.show()),
        "r" if fields.len() == 1 => Some(driver.report()),
        name => single::answer(name, &fields[1..]),
    }
}

fn main() -> std::io::Result<()> {
    clear_environment();
    let options: Vec<String> = std::env::args().skip(1).collect();
    let chosen = |name: &str| options.iter().any(|o| o == name);
    if options.iter().any(|o| o != "--ask-4" && o != "--time") {
        eprintln!("usage: oracle/run [--source SOURCE] [--ask-4] [--time]");
        std::process::exit(2);
    }
    let mut driver = stand::Driver::new(chosen("--ask-4"));
    let mut input = BufReader::new(std::io::stdin().lock());
    let mut output = BufWriter::new(std::io::stdout().lock());
    let (mut bytes, mut number) = (Vec::new(), 0u64);
    while input.read_until(b'\n', &mut bytes)? > 0 {
        number += 1;
        let line =
            String::from_utf8_lossy(bytes.strip_suffix(b"\n").unwrap_or(&bytes)).into_owned();
        bytes.clear();
        if !line.is_empty() && !line.starts_with('#') {
            let text = answer(&mut driver, &line).unwrap_or_else(|| format!("bad line {number}"));
            writeln!(output, "{text}")?;
        }
        if input.buffer().is_empty() {
            output.flush()?;
        }
    }
    if chosen("--time") {
        eprintln!("{}", driver.time_in_the_rust());
    }
    output.flush()
}
