//! Single functions of the Rust, asked by lines of bits.
use crate::places::{self, Places};
use crate::text::{self, Fields, bits, flag, guarded, joined};
use czsc_core::analyze::utils::{
    GapInfo, check_fx, check_gap_info, get_zs_seq, is_bis_down, is_bis_up, remove_include,
};
use czsc_core::objects::{
    bar::{NewBar, RawBar},
    bi::BI,
    direction::Direction,
    fake_bi::{FakeBI, create_fake_bis},
    fx::FX,
    mark::Mark,
    zs::ZS,
};
use czsc_core::utils::rounded::RoundToNthDigit;

/// The answer, or None where the line is none of these questions.
pub fn answer(name: &str, fields: &[&str]) -> Option<String> {
    let mut f = Fields::new(fields);
    let value = match name {
        "round" => bits(f.float()?.round()),
        "places" => to_places(&mut f)?,
        "round2" => bits(f.float()?.round_to_2_digit()),
        "round3" => bits(f.float()?.round_to_3_digit()),
        "round4" => bits(f.float()?.round_to_4_digit()),
        "max" => bits(f.float()?.max(f.float()?)),
        "min" => bits(f.float()?.min(f.float()?)),
        "abs" => bits(f.float()?.abs()),
        "sum" => bits(f.floats()?.iter().sum::<f64>()),
        "mean" if f.left() > 0 => mean(&f.floats()?),
        "slope" => bits(stroke_of(&pairs_of_closes(&f.floats()?)).get_slope()),
        "acceleration" => bits(stroke_of(&pairs_of_closes(&f.floats()?)).get_acceleration()),
        "snr" if f.left() % 2 == 0 => bits(stroke_of(&f.floats()?).get_snr()),
        "remove_include" => merged(f.bar()?, f.bar()?, f.bar()?),
        "check_fx" => found(f.bar()?, f.bar()?, f.bar()?),
        "gaps" => gaps(&mut f)?,
        "zones" => zones(&mut f)?,
        "fake" => fakes(&mut f)?,
        "bis" => runs(&mut f)?,
        _ => return None,
    };
    (f.left() == 0).then_some(value)
}

fn to_places(f: &mut Fields) -> Option<String> {
    let digits: usize = f.int()?;
    let x = f.float()?;
    (digits <= 6).then(|| bits(x.round_to_nth_digit(digits)))
}

fn mean(values: &[f64]) -> String {
    bits(values.iter().sum::<f64>() / values.len() as f64)
}

/// A bar that only stands where the Rust wants one.
fn blank() -> RawBar {
    let line = ["0", "0"].into_iter().chain(["3ff0000000000000"; 6]);
    Fields::new(&line.collect::<Vec<_>>()).bar().unwrap()
}

fn pairs_of_closes(closes: &[f64]) -> Vec<f64> {
    closes.iter().flat_map(|&c| [c, c]).collect()
}

/// A stroke whose inner raw bars have these opens and closes: three merged bars, the middle one holds them all.
fn stroke_of(opens_and_closes: &[f64]) -> BI {
    let edge = NewBar::new_from_raw(&blank());
    let mut middle = edge.clone();
    middle.elements = opens_and_closes
        .chunks(2)
        .map(|pair| RawBar {
            open: pair[0],
            close: pair[1],
            ..blank()
        })
        .collect();
    BI {
        bars: vec![edge.clone(), middle, edge],
        ..stroke(
            Direction::Up,
            fractal(Mark::D, 0.0, 0.0),
            fractal(Mark::G, 0.0, 0.0),
        )
    }
}

fn fractal(mark: Mark, high: f64, low: f64) -> FX {
    let fx = if mark == Mark::G { high } else { low };
    let edge = NewBar::new_from_raw(&blank());
    FX {
        symbol: "x".into(),
        dt: blank().dt,
        mark,
        high,
        low,
        fx,
        elements: vec![edge.clone(), edge.clone(), edge],
    }
}

fn stroke(direction: Direction, fx_a: FX, fx_b: FX) -> BI {
    BI {
        symbol: "x".into(),
        fx_a,
        fx_b,
        fxs: vec![],
        direction,
        bars: vec![],
    }
}

fn merged(k1: RawBar, k2: RawBar, k3: RawBar) -> String {
    guarded(|| {
        let (k1, k2) = (NewBar::new_from_raw(&k1), NewBar::new_from_raw(&k2));
        let (included, bar) = remove_include(&k1, &k2, k3).unwrap();
        format!("{} {}", flag(included), text::new_bar_with(&bar, |_| true))
    })
}

fn found(k1: RawBar, k2: RawBar, k3: RawBar) -> String {
    let [k1, k2, k3] = [k1, k2, k3].map(|k| NewBar::new_from_raw(&k));
    match check_fx(&k1, &k2, &k3) {
        Some(x) => format!("fx {}", text::fractal(&x)),
        None => "none".to_string(),
    }
}

fn gaps(f: &mut Fields) -> Option<String> {
    let mut bars = Vec::new();
    while f.left() > 0 {
        bars.push(f.bar()?);
    }
    Some(joined(gap_answers(&bars, places::RUST)))
}

/// One answer for each neighbouring pair. The Rust lists only the gaps, in order: asked of a pair alone it
/// says whether that pair is one, and its place in the whole list says whether it is covered.
pub fn gap_answers(bars: &[RawBar], places: Places) -> Vec<String> {
    let all = check_gap_info(bars);
    let mut rest = all.iter();
    let answers = bars
        .windows(2)
        .map(|pair| match check_gap_info(pair).first() {
            None => "none".to_string(),
            Some(_) => {
                let gap = rest.next().unwrap();
                let kind = if gap.kind == "向上缺口" {
                    "up"
                } else {
                    "down"
                };
                let covered = flag(gap.cover == "已补");
                format!(
                    "{kind} {} {} {} {covered}",
                    bits(gap.low),
                    bits(gap.high),
                    ratio(gap, places)
                )
            }
        });
    let answers: Vec<String> = answers.collect();
    assert!(rest.next().is_none(), "a gap belongs to no pair");
    answers
}

/// The Rust divides by the lower edge of any gap. Request three gives no ratio where that edge is zero or less.
fn ratio(gap: &GapInfo, places: Places) -> String {
    let ratio = places.gap_ratio(gap);
    if gap.low <= 0.0 {
        "none".to_string()
    } else {
        bits(ratio)
    }
}

/// Strokes from `up|down HIGH LOW SDT EDT`. Both fractals take HIGH and LOW, so that the stroke's high and
/// low, taken over both, are these very numbers.
fn strokes(f: &mut Fields) -> Option<Vec<BI>> {
    let mut list = Vec::new();
    while f.left() > 0 {
        let (way, high, low) = (f.direction()?, f.float()?, f.float()?);
        let (start, end) = (f.time()?, f.time()?);
        let (a, b) = if way == Direction::Up {
            (Mark::D, Mark::G)
        } else {
            (Mark::G, Mark::D)
        };
        let (a, b) = (fractal(a, high, low), fractal(b, high, low));
        list.push(stroke(way, FX { dt: start, ..a }, FX { dt: end, ..b }));
    }
    Some(list)
}

/// SDT EDT SDIR EDIR ZG ZD ZZ GG DD VALID N
pub fn zone(z: &ZS) -> String {
    let edges = [z.zg, z.zd, z.zz, z.gg, z.dd].map(bits).join(" ");
    let (start, end) = (text::direction(z.sdir), text::direction(z.edir));
    let times = format!("{} {}", z.sdt.timestamp(), z.edt.timestamp());
    format!(
        "{times} {start} {end} {edges} {} {}",
        flag(z.is_valid()),
        z.bis.len()
    )
}

fn zones(f: &mut Fields) -> Option<String> {
    let list = strokes(f)?;
    Some(guarded(|| {
        joined(get_zs_seq(&list).iter().map(zone).collect())
    }))
}

/// up|down SDT EDT HIGH LOW POWER
pub fn fake(b: &FakeBI, places: Places) -> String {
    let times = format!("{} {}", b.sdt.timestamp(), b.edt.timestamp());
    format!(
        "{} {times} {} {} {}",
        text::direction(b.direction),
        bits(b.high),
        bits(b.low),
        bits(places.fake_power(b))
    )
}

fn fakes(f: &mut Fields) -> Option<String> {
    let mut list = Vec::new();
    while f.left() > 0 {
        let (dt, mark) = (f.time()?, f.mark()?);
        let (high, low) = (f.float()?, f.float()?);
        list.push(FX {
            dt,
            ..fractal(mark, high, low)
        });
    }
    Some(guarded(|| {
        let made = create_fake_bis(&list);
        joined(made.iter().map(|b| fake(b, places::RUST)).collect())
    }))
}

fn runs(f: &mut Fields) -> Option<String> {
    let list = strokes(f)?;
    Some(up_and_down(&list))
}

pub fn up_and_down(list: &[BI]) -> String {
    format!("{} {}", flag(is_bis_up(list)), flag(is_bis_down(list)))
}
