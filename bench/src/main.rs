//! Times update_bar of the Rust and of the port on the same bars, the port's step from a fresh analyzer, and its batch call.
mod clock;
mod end;
mod port;
mod replayed;
mod rooms;
mod series;

use chrono::{TimeZone, Utc};
use czsc_core::analyze::CZSC;
use czsc_core::events;
use czsc_core::objects::{bar::RawBar, freq::Freq};
use end::End;
use port::{Columns, Port, ROOM};
use series::Fed;
use std::time::Duration;

/// The Rust's own defaults: most strokes and minimum length.
const MOST: usize = 50;
const MINIMUM: usize = 6;

fn raw_bars(bars: &[Fed]) -> Vec<RawBar> {
    let symbol: std::sync::Arc<str> = "x".into();
    let raw = |b: &Fed| {
        let [open, close, high, low, vol, amount] = b.values;
        RawBar {
            symbol: symbol.clone(),
            dt: Utc.timestamp_opt(b.time, 0).unwrap(),
            freq: Freq::Tick,
            id: b.id,
            open,
            close,
            high,
            low,
            vol,
            amount,
        }
    };
    bars.iter().map(raw).collect()
}

/// Bar by bar through the Rust. The bars are made beforehand; what it holds is freed afterwards.
fn time_rust(bars: &[Fed]) -> (Duration, End) {
    let mut rest = raw_bars(bars).into_iter();
    let first = rest.next().unwrap();
    events::take();
    let start = clock::now();
    let mut czsc = CZSC::new(vec![first], MOST, MINIMUM);
    for bar in rest {
        czsc.update_bar(bar);
    }
    let spent = clock::now() - start;
    (spent, End::of_rust(&czsc, events::take()))
}

/// Bar by bar through the port, all questions asked.
fn time_port(port: &mut Port, bars: &[Fed]) -> (Duration, End) {
    let mut sums = [0; 3];
    let start = clock::now();
    let mut failed = port.fresh();
    for bar in bars {
        failed |= port.update_bar(bar);
        for (sum, n) in sums.iter_mut().zip(port.events[0]) {
            *sum += n;
        }
    }
    let spent = clock::now() - start;
    assert_eq!(failed, 0, "the port refused a bar");
    (spent, End::of_port(port, sums))
}

/// All bars in one call of the port.
fn time_batch(port: &mut Port, bars: &[Fed]) -> (Duration, End) {
    let columns = Columns::new(bars);
    let start = clock::now();
    let failed = port.feed_all(&columns, [ROOM; 3]);
    let spent = clock::now() - start;
    assert_eq!(failed, 0, "the port refused a bar");
    let [made, broken, shed, fed] = port.sums[0];
    assert_eq!(fed, bars.len() as u64, "the port took fewer bars");
    (spent, End::of_port(port, [made, broken, shed]))
}

/// Of the shortest run: other work on the machine only adds.
fn least(spent: Vec<Duration>, bars: usize) -> f64 {
    spent.iter().min().unwrap().as_nanos() as f64 / bars as f64
}

/// A time and how often it goes into the Rust's, where it was measured.
fn beside(rust: f64, port: Option<f64>) -> String {
    match port {
        Some(port) => format!("{port:.0} | {:.2}", rust / port),
        None => "- | -".into(),
    }
}

/// The three timed in turns, so that a slow spell of the machine meets all of them, and replay in turns of its own.
fn measure(name: &str, bars: &[Fed], repeats: usize, port: &mut Port) {
    let mut spent = [vec![], vec![], vec![]];
    for _ in 0..repeats {
        let (rust, wanted) = time_rust(bars);
        let (one, end) = time_port(port, bars);
        assert!(end == wanted, "{name}: bar by bar the port ends elsewhere");
        let (batch, end) = time_batch(port, bars);
        assert!(end == wanted, "{name}: the batch call ends elsewhere");
        for (list, time) in spent.iter_mut().zip([rust, one, batch]) {
            list.push(time);
        }
    }
    let [rust, one, batch] = spent.map(|s| least(s, bars.len()));
    let fresh = beside(rust, replayed::from_fresh(bars, repeats));
    let [made, broken, shed, _] = port.sums[0];
    println!(
        "| {name} | {} | {rust:.0} | {} | {fresh} | {batch:.0} | {:.1} | {made} | {broken} | {shed} | {} | {} |",
        bars.len(),
        beside(rust, Some(one)),
        rust / batch,
        port.raw(),
        port.strokes()
    );
}

/// What is to be lent for a series.
fn measure_rooms(name: &str, bars: &[Fed], port: &mut Port) {
    let [raw, unfinished, strokes] = rooms::lent(port, bars);
    println!(
        "| {name} | {} | {raw} | {unfinished} | {strokes} |",
        bars.len()
    );
}

fn repeats_for(bars: usize) -> usize {
    match bars {
        0..=1000 => 41,
        1001..=10000 => 11,
        10001..=100000 => 5,
        _ => 2,
    }
}

/// The series of a table: a name, a style of oracle/generate, how many bars in ten keep the last time, and the lengths.
const STYLES: [(&str, &str, usize, &[usize]); 6] = [
    ("random walk", "walk", 0, &[1000, 10000, 100000, 1000000]),
    ("zigzag", "zigzag", 0, &[1000, 10000, 100000, 1000000]),
    ("deep merging", "nested", 0, &[1000, 10000, 100000, 1000000]),
    ("walk, half replaced", "walk", 5, &[1000, 10000, 100000]),
    (
        "merging, half replaced",
        "nested",
        5,
        &[1000, 10000, 100000],
    ),
    ("across zero", "across", 0, &[1000, 10000]),
];

/// Every series that is asked for, named as in the table or with its number of bars behind it; all of them where none is named.
fn each_series(only: &[String], mut each: impl FnMut(&str, Vec<Fed>)) {
    let wanted = |name: &str, bars: usize| {
        only.is_empty()
            || only
                .iter()
                .any(|o| *o == format!("{name} {bars}") || o == name)
    };
    for (name, style, replaced, lengths) in STYLES {
        for &bars in lengths {
            if wanted(name, bars) {
                each(name, series::generated(style, bars, replaced));
            }
        }
    }
    for bars in [1000, 10000] {
        if wanted("walk below zero", bars) {
            let walk = series::generated("walk", bars, 0);
            each("walk below zero", series::upside_down(walk));
        }
    }
    for bars in [1000, 1250, 2500, 5000] {
        if wanted("rising", bars) {
            each("rising", series::rising(bars));
        }
    }
}

fn main() {
    let words: Vec<String> = std::env::args().skip(1).collect();
    let mut port = Port::stores();
    if words.first().is_some_and(|w| w == "rooms") {
        println!("| series | bars | raw | unfinished | strokes |");
        println!("|---|---|---|---|---|");
        each_series(&words[1..], |name, fed| {
            measure_rooms(name, &fed, &mut port)
        });
        return;
    }
    println!(
        "| series | bars | Rust | port | times | from fresh | times | batch | times | made | broken | shed | raw | strokes |"
    );
    println!("|---|---|---|---|---|---|---|---|---|---|---|---|---|---|");
    each_series(&words, |name, fed| {
        measure(name, &fed, repeats_for(fed.len()), &mut port)
    });
}
