//! The reports of the call `r`, block by block in the order of the replay format.
use crate::places::Places;
use crate::single::{fake, gap_answers, up_and_down, zone};
use crate::stand::measure;
use crate::text::{self, bits, flag};
use czsc_core::analyze::{CZSC, utils::get_zs_seq};
use czsc_core::objects::{bi::BI, fx::FX};

pub fn all(c: &CZSC, places: Places) -> Vec<String> {
    let mut lines = Vec::new();
    for bi in &c.bi_list {
        measures(bi, places, &mut lines);
    }
    let finished = c.get_finished_bis();
    lines.extend(
        c.get_fx_list()
            .iter()
            .map(|x| format!("fxs {}", text::fractal(x))),
    );
    lines.push(format!("finished {}", finished.len()));
    lines.push(format!("extend {}", flag(c.last_bi_extend())));
    zones("", &c.bi_list, &mut lines);
    zones("fin-", &finished, &mut lines);
    runs(&c.bi_list, &mut lines);
    let unfinished = c.get_ubi_fxs().unwrap_or_default();
    let inside = c.bi_list.iter().flat_map(|bi| &bi.fxs);
    lines.extend(inside.chain(&unfinished).map(answers));
    lines.extend(
        unfinished
            .iter()
            .map(|x| format!("ubifx {}", text::fractal(x))),
    );
    lines.push(unfinished_summary(c, &unfinished));
    let gaps = gap_answers(&c.bars_raw, places);
    lines.extend(gaps.iter().map(|g| format!("gap {g}")));
    lines.push("end".to_string());
    lines
}

fn measures(bi: &BI, places: Places, lines: &mut Vec<String>) {
    lines.push(format!("measure {}", measure(bi, places)));
    let times = bi
        .get_raw_bars()
        .into_iter()
        .map(|b| format!(" {}", b.dt.timestamp()));
    lines.push(format!("inner{}", times.collect::<String>()));
    lines.extend(
        bi.create_fake_bis()
            .iter()
            .map(|b| format!("fake {}", fake(b, places))),
    );
}

fn zones(prefix: &str, bis: &[BI], lines: &mut Vec<String>) {
    for z in get_zs_seq(bis) {
        lines.push(format!("{prefix}zone {}", zone(&z)));
        lines.extend(
            z.bis
                .iter()
                .map(|bi| format!("{prefix}zs {}", text::summary(bi))),
        );
    }
}

fn runs(bis: &[BI], lines: &mut Vec<String>) {
    for first in 0..=bis.len() {
        for len in (0..=7).take_while(|len| first + len <= bis.len()) {
            lines.push(format!(
                "bis {first} {len} {}",
                up_and_down(&bis[first..first + len])
            ));
        }
    }
}

fn answers(x: &FX) -> String {
    let strength = match x.power_str() {
        "强" => "strong",
        "中" => "medium",
        _ => "weak",
    };
    format!(
        "answers {strength} {} {}",
        bits(x.power_volume()),
        flag(x.has_zs())
    )
}

/// The Rust's get_ubi takes the first of the unfinished fractals without asking whether there is one.
fn unfinished_summary(c: &CZSC, fractals: &[FX]) -> String {
    if fractals.is_empty() {
        return "unfinished no".to_string();
    }
    let Some(u) = c.get_ubi() else {
        return "unfinished no".to_string();
    };
    let edges = format!("{} {}", bits(u.high), bits(u.low));
    let times = format!("{} {}", u.high_bar.dt.timestamp(), u.low_bar.dt.timestamp());
    let counts = format!("{} {} {}", u.bars.len(), u.raw_bars.len(), u.fxs.len());
    format!(
        "unfinished {} {edges} {times} {counts} {}",
        text::direction(u.direction),
        u.fx_a.dt.timestamp()
    )
}
