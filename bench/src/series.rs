//! The series: streams of oracle/generate, and one that only rises.
use std::process::Command;

#[derive(Clone, Copy)]
pub struct Fed {
    pub time: i64,
    pub id: i32,
    /// open, close, high, low, vol, amount
    pub values: [f64; 6],
}

/// The bars of one stream, at default settings: `replaced` in ten keep the last time.
pub fn generated(style: &str, bars: usize, replaced: usize) -> Vec<Fed> {
    let here = env!("CARGO_MANIFEST_DIR");
    let bars_text = bars.to_string();
    let replaced_text = replaced.to_string();
    let out = Command::new(format!("{here}/../oracle/generate"))
        .args([style, "--bars", &bars_text, "--segment", &bars_text])
        .args(["--min", "0", "--max", "0", "--replaced", &replaced_text])
        .output()
        .expect("oracle/generate does not run");
    let text = String::from_utf8(out.stdout).expect("oracle/generate writes text");
    let fed: Vec<Fed> = text
        .lines()
        .filter_map(|l| l.strip_prefix("b "))
        .map(bar)
        .collect();
    assert_eq!(fed.len(), bars, "oracle/generate wrote other bars");
    fed
}

fn bar(line: &str) -> Fed {
    let fields: Vec<&str> = line.split(' ').collect();
    let bits = |s: &str| f64::from_bits(u64::from_str_radix(s, 16).unwrap());
    let mut values = [0.0; 6];
    for (value, field) in values.iter_mut().zip(&fields[2..]) {
        *value = bits(field);
    }
    Fed {
        time: fields[0].parse().unwrap(),
        id: fields[1].parse().unwrap(),
        values,
    }
}

/// The same bars upside down: every price with the other sign, high and low exchanged.
pub fn upside_down(mut bars: Vec<Fed>) -> Vec<Fed> {
    for bar in &mut bars {
        let [open, close, high, low, vol, amount] = bar.values;
        bar.values = [-open, -close, -low, -high, vol, amount];
    }
    bars
}

/// Each bar wholly above the last: no bars merge and there is no fractal.
pub fn rising(bars: usize) -> Vec<Fed> {
    let one = |n: usize| {
        let low = 10.0 + 2.0 * n as f64;
        Fed {
            time: 60 * n as i64,
            id: n as i32,
            values: [low, low + 1.0, low + 1.0, low, 100.0, 1000.0],
        }
    };
    (0..bars).map(one).collect()
}
