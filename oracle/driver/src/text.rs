//! Fields to values and back.
use chrono::{DateTime, TimeZone, Utc};
use czsc_core::objects::{
    bar::{NewBar, RawBar},
    bi::BI,
    direction::Direction,
    freq::Freq,
    fx::FX,
    mark::Mark,
};
use std::str::FromStr;

/// The fields of a line, taken one by one. Every taker gives None where the field is no such thing.
pub struct Fields<'a>(std::slice::Iter<'a, &'a str>);

impl<'a> Fields<'a> {
    pub fn new(fields: &'a [&'a str]) -> Self {
        Fields(fields.iter())
    }

    pub fn left(&self) -> usize {
        self.0.len()
    }

    pub fn word(&mut self) -> Option<&'a str> {
        self.0.next().copied()
    }

    /// Decimal digits, with a minus sign before them or none.
    pub fn int<T: FromStr>(&mut self) -> Option<T> {
        let field = self.word()?;
        let digits = field.strip_prefix('-').unwrap_or(field);
        if digits.is_empty() || !digits.bytes().all(|b| b.is_ascii_digit()) {
            return None;
        }
        field.parse().ok()
    }

    pub fn float(&mut self) -> Option<f64> {
        let field = self.word()?;
        let hex = |b: u8| b.is_ascii_digit() || (b'a'..=b'f').contains(&b);
        if field.len() != 16 || !field.bytes().all(hex) {
            return None;
        }
        u64::from_str_radix(field, 16).ok().map(f64::from_bits)
    }

    /// All that is left, as floats.
    pub fn floats(&mut self) -> Option<Vec<f64>> {
        (0..self.left()).map(|_| self.float()).collect()
    }

    pub fn direction(&mut self) -> Option<Direction> {
        match self.word()? {
            "up" => Some(Direction::Up),
            "down" => Some(Direction::Down),
            _ => None,
        }
    }

    pub fn mark(&mut self) -> Option<Mark> {
        match self.word()? {
            "D" => Some(Mark::D),
            "G" => Some(Mark::G),
            _ => None,
        }
    }

    pub fn time(&mut self) -> Option<DateTime<Utc>> {
        Utc.timestamp_opt(self.int()?, 0).single()
    }

    /// TIME ID OPEN CLOSE HIGH LOW VOL AMOUNT, the time still as a number.
    pub fn bar_at(&mut self) -> Option<(i64, RawBar)> {
        let (time, id) = (self.int()?, self.int()?);
        let mut float = || self.float();
        let bar = RawBar {
            symbol: "x".into(),
            dt: Utc.timestamp_opt(0, 0).single()?,
            freq: Freq::Tick,
            id,
            open: float()?,
            close: float()?,
            high: float()?,
            low: float()?,
            vol: float()?,
            amount: float()?,
        };
        Some((time, bar))
    }

    pub fn bar(&mut self) -> Option<RawBar> {
        let (time, bar) = self.bar_at()?;
        Some(RawBar {
            dt: Utc.timestamp_opt(time, 0).single()?,
            ..bar
        })
    }
}

pub fn bits(x: f64) -> String {
    if x.is_nan() {
        "nan".to_string()
    } else {
        format!("{:016x}", x.to_bits())
    }
}

pub fn flag(b: bool) -> u8 {
    b as u8
}

pub fn direction(d: Direction) -> &'static str {
    match d {
        Direction::Up => "up",
        Direction::Down => "down",
    }
}

/// TIME ID, then open, close, high, low, vol and amount.
fn bar_fields(time: i64, id: i32, floats: [f64; 6]) -> String {
    let floats: Vec<String> = floats.into_iter().map(bits).collect();
    format!("{time} {id} {}", floats.join(" "))
}

pub fn raw_bar(b: &RawBar) -> String {
    bar_fields(
        b.dt.timestamp(),
        b.id,
        [b.open, b.close, b.high, b.low, b.vol, b.amount],
    )
}

pub fn new_bar(b: &NewBar) -> String {
    bar_fields(
        b.dt.timestamp(),
        b.id,
        [b.open, b.close, b.high, b.low, b.vol, b.amount],
    )
}

/// The merged bar and the times of those of its elements that `named` picks.
pub fn new_bar_with(b: &NewBar, named: impl Fn(&RawBar) -> bool) -> String {
    let times = b
        .elements
        .iter()
        .filter(|e| named(e))
        .map(|e| format!(" {}", e.dt.timestamp()));
    format!("{} :{}", new_bar(b), times.collect::<String>())
}

pub fn fractal(x: &FX) -> String {
    let mark = match x.mark {
        Mark::D => "D",
        Mark::G => "G",
    };
    format!(
        "{} {mark} {} {} {}",
        x.dt.timestamp(),
        bits(x.high),
        bits(x.low),
        bits(x.fx)
    )
}

/// DIRECTION HIGH LOW SDT EDT
pub fn summary(bi: &BI) -> String {
    let (start, end) = (bi.start_dt().timestamp(), bi.end_dt().timestamp());
    format!(
        "{} {} {} {start} {end}",
        direction(bi.direction),
        bits(bi.get_high()),
        bits(bi.get_low())
    )
}

/// The items, or the word `empty` where there are none, so that every answer is a line one can see.
pub fn joined(items: Vec<String>) -> String {
    if items.is_empty() {
        "empty".to_string()
    } else {
        items.join(" | ")
    }
}

/// What the work answers, or `panic` where the Rust panics.
pub fn guarded(work: impl FnOnce() -> String) -> String {
    std::panic::catch_unwind(std::panic::AssertUnwindSafe(work))
        .unwrap_or_else(|_| "panic".to_string())
}
