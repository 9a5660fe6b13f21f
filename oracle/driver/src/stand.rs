//! The analyzer under the calls `n`, `N`, `b` and `d`.
use crate::places::{self, Places};
use crate::reports;
use crate::text::{self, Fields, bits, guarded};
use chrono::{TimeZone, Utc};
use czsc_core::analyze::{CZSC, resolve_max_bi_num, resolve_min_bi_len};
use czsc_core::events;
use czsc_core::objects::{bar::RawBar, bi::BI, freq::Freq};
use std::time::{Duration, Instant};

/// What an accepted `n` or `N` sets up. Before the first bar the Rust has no analyzer yet: `analyzer` then is an
/// empty one that only reports read, and the first bar goes to `CZSC::new`.
struct Analysis {
    analyzer: CZSC,
    places: Places,
    last_time: Option<i64>,
    panicked: bool,
}

pub struct Driver {
    analysis: Option<Analysis>,
    ask_4: bool,
    bars: u32,
    spent: Duration,
}

fn empty(min: usize, max: usize) -> CZSC {
    CZSC {
        max_bi_num: resolve_max_bi_num(max),
        min_bi_len: resolve_min_bi_len(min),
        bars_raw: vec![],
        bars_ubi: vec![],
        bi_list: vec![],
        symbol: "x".into(),
        freq: Freq::Tick,
    }
}

/// The first of questions 1, 2, 17 and 3 that the numbers of `N` fail.
fn ask_settings(numbers: &[u64]) -> Option<u8> {
    if numbers[0] > 64 {
        Some(1)
    } else if numbers[1] > 64 {
        Some(2)
    } else if numbers[2..4].iter().any(|&n| n > places::MOST) {
        Some(17)
    } else if !numbers[4..].iter().all(|n| (16..=65536).contains(n)) {
        Some(3)
    } else {
        None
    }
}

/// The seven numbers of `N`: minimum, most, places for power and for ratios, three store lengths. `n` has five and means the Rust's places.
fn fresh_numbers(name: &str, fields: &[&str]) -> Option<Vec<u64>> {
    let mut f = Fields::new(fields);
    let mut numbers: Vec<u64> = (0..f.left()).map(|_| f.int()).collect::<Option<_>>()?;
    if name == "n" && numbers.len() == 5 {
        let own = [places::RUST.power as u64, places::RUST.ratio as u64];
        numbers.splice(2..2, own);
        Some(numbers)
    } else {
        (name == "N" && numbers.len() == 7).then_some(numbers)
    }
}

/// Question 6 for one price, as request three has it: plain zero, or a magnitude from 2^-20 to 2^30.
fn price_allowed(p: f64) -> bool {
    let plain_zero = p == 0.0 && p.is_sign_positive();
    plain_zero || (2f64.powi(-20)..=2f64.powi(30)).contains(&p.abs())
}

/// The first of questions 5 to 9 that the bar fails, written from documents 01 and 02: the Rust asks none of them.
fn ask_bar(time: i64, bar: &RawBar, last: Option<i64>) -> Option<u8> {
    let edge = 1i64 << 40;
    let amount = |v: f64| (0.0..=2f64.powi(50)).contains(&v) && v.is_sign_positive();
    if !(-edge..=edge).contains(&time) {
        Some(5)
    } else if ![bar.open, bar.close, bar.high, bar.low]
        .into_iter()
        .all(price_allowed)
    {
        Some(6)
    } else if !(amount(bar.vol) && amount(bar.amount)) {
        Some(7)
    } else if bar.low > bar.high {
        Some(8)
    } else if last.is_some_and(|t| time < t) {
        Some(9)
    } else {
        None
    }
}

impl Analysis {
    /// The one clause of question 4 that a stand reached from fresh can fail.
    fn newest_bar_is_last_element(&self) -> bool {
        let newest = self.analyzer.bars_raw.last().map(|b| b.dt);
        let last = self
            .analyzer
            .bars_ubi
            .last()
            .and_then(|b| b.elements.last())
            .map(|e| e.dt);
        newest == last
    }

    fn accept(&mut self, time: i64, bar: RawBar) -> String {
        let bar = RawBar {
            dt: Utc.timestamp_opt(time, 0).unwrap(),
            ..bar
        };
        let first = self.last_time.is_none();
        events::take();
        let text = guarded(|| {
            if first {
                let old = &self.analyzer;
                self.analyzer = CZSC::new(vec![bar], old.max_bi_num, old.min_bi_len);
            } else {
                self.analyzer.update_bar(bar);
            }
            let [made, broken, shed] = events::take();
            format!("ok {made} {broken} {shed}")
        });
        self.panicked = text == "panic";
        self.last_time = Some(time);
        text
    }
}

impl Driver {
    pub fn new(ask_4: bool) -> Self {
        Driver {
            analysis: None,
            ask_4,
            bars: 0,
            spent: Duration::ZERO,
        }
    }

    /// `n` and `N`
    pub fn fresh(&mut self, name: &str, fields: &[&str]) -> Option<String> {
        let numbers = fresh_numbers(name, fields)?;
        if let Some(k) = ask_settings(&numbers) {
            return Some(format!("no {k}"));
        }
        let analyzer = empty(numbers[0] as usize, numbers[1] as usize);
        self.analysis = Some(Analysis {
            analyzer,
            places: Places {
                power: numbers[2] as usize,
                ratio: numbers[3] as usize,
            },
            last_time: None,
            panicked: false,
        });
        Some("ok".to_string())
    }

    /// `b`
    pub fn feed(&mut self, fields: &[&str]) -> Option<String> {
        let mut f = Fields::new(fields);
        let (time, bar) = f.bar_at()?;
        if f.left() > 0 {
            return None;
        }
        let ask_4 = self.ask_4;
        let mut spent = None;
        let text = self.with(ask_4, |analysis| {
            match ask_bar(time, &bar, analysis.last_time) {
                Some(k) => format!("no {k}"),
                None => {
                    let start = Instant::now();
                    let text = analysis.accept(time, bar);
                    spent = Some(start.elapsed());
                    text
                }
            }
        });
        self.bars += spent.is_some() as u32;
        self.spent += spent.unwrap_or_default();
        Some(text)
    }

    pub fn time_in_the_rust(&self) -> String {
        let each = self.spent.as_secs_f64() * 1e6 / self.bars.max(1) as f64;
        format!(
            "{} bars, {:.3} seconds, {each:.2} microseconds a bar",
            self.bars,
            self.spent.as_secs_f64()
        )
    }

    /// `d`
    pub fn show(&mut self) -> String {
        self.with(false, |analysis| stand(&analysis.analyzer).join("\n"))
    }

    /// `r`
    pub fn report(&mut self) -> String {
        let ask_4 = self.ask_4;
        self.with(ask_4, |analysis| {
            guarded(|| reports::all(&analysis.analyzer, analysis.places).join("\n"))
        })
    }

    fn with(&mut self, ask_4: bool, work: impl FnOnce(&mut Analysis) -> String) -> String {
        match &mut self.analysis {
            None => "no 4".to_string(),
            Some(analysis) if analysis.panicked => "panic".to_string(),
            Some(analysis) if ask_4 && !analysis.newest_bar_is_last_element() => "no 4".to_string(),
            Some(analysis) => work(analysis),
        }
    }
}

fn stand(c: &CZSC) -> Vec<String> {
    let counts = format!(
        "{} {} {}",
        c.bars_raw.len(),
        c.bars_ubi.len(),
        c.bi_list.len()
    );
    let mut lines = vec![format!("stand {} {} {counts}", c.min_bi_len, c.max_bi_num)];
    lines.extend(
        c.bars_raw
            .iter()
            .map(|b| format!("raw {}", text::raw_bar(b))),
    );
    let kept = |e: &RawBar| c.bars_raw.binary_search_by_key(&e.dt, |b| b.dt).is_ok();
    lines.extend(
        c.bars_ubi
            .iter()
            .map(|b| format!("ubi {}", text::new_bar_with(b, kept))),
    );
    for bi in &c.bi_list {
        stroke(bi, kept, &mut lines);
    }
    lines.push("end".to_string());
    lines
}

fn stroke(bi: &BI, kept: impl Fn(&RawBar) -> bool, lines: &mut Vec<String>) {
    lines.push(format!(
        "stroke {} {} {}",
        text::direction(bi.direction),
        bi.fxs.len(),
        bi.bars.len()
    ));
    lines.push(format!("a {}", text::fractal(&bi.fx_a)));
    lines.push(format!("z {}", text::fractal(&bi.fx_b)));
    for x in &bi.fxs {
        lines.push(format!("fx {}", text::fractal(x)));
        lines.extend(
            x.elements
                .iter()
                .map(|b| format!("fb {}", text::new_bar(b))),
        );
    }
    for (i, b) in bi.bars.iter().enumerate() {
        let inner = i > 0 && i + 1 < bi.bars.len();
        lines.push(format!(
            "bar {}",
            text::new_bar_with(b, |e| inner && kept(e))
        ));
    }
}

/// HIGH LOW POWER VOLUME SNR POWERSNR CHANGE SLOPE ACCELERATION LENGTH NINNER
pub fn measure(bi: &BI, places: Places) -> String {
    let floats = [
        bi.get_high(),
        bi.get_low(),
        places.power_price(bi),
        bi.get_power_volume(),
        bi.get_snr(),
        places.power_snr(bi),
        places.change(bi),
        bi.get_slope(),
        bi.get_acceleration(),
    ];
    format!(
        "{} {} {}",
        floats.map(bits).join(" "),
        bi.get_length(),
        bi.get_raw_bars().len()
    )
}
