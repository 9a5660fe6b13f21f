//! What both sides end with: a benchmark that compares nothing can lie.
use crate::port::Port;
use czsc_core::analyze::CZSC;

#[derive(PartialEq)]
pub struct End {
    /// made, broken, shed
    events: [u64; 3],
    raw: Vec<(i64, [u64; 6])>,
    unfinished: Vec<(i64, [u64; 6], usize)>,
    /// the merged bars' times of each stroke, and its number of fractals
    strokes: Vec<(Vec<i64>, usize)>,
}

fn bits(values: [f64; 6]) -> [u64; 6] {
    values.map(f64::to_bits)
}

impl End {
    pub fn of_rust(c: &CZSC, events: [usize; 3]) -> End {
        let raw = c.bars_raw.iter();
        let unfinished = c.bars_ubi.iter();
        let strokes = c.bi_list.iter();
        End {
            events: events.map(|n| n as u64),
            raw: raw
                .map(|b| {
                    (
                        b.dt.timestamp(),
                        bits([b.open, b.close, b.high, b.low, b.vol, b.amount]),
                    )
                })
                .collect(),
            unfinished: unfinished
                .map(|b| {
                    let values = [b.open, b.close, b.high, b.low, b.vol, b.amount];
                    (b.dt.timestamp(), bits(values), b.elements.len())
                })
                .collect(),
            strokes: strokes
                .map(|s| {
                    (
                        s.bars.iter().map(|b| b.dt.timestamp()).collect(),
                        s.fxs.len(),
                    )
                })
                .collect(),
        }
    }

    pub fn of_port(p: &Port, events: [u64; 3]) -> End {
        let mut at = 0;
        let mut strokes = vec![];
        for k in 0..p.strokes() {
            let n = p.counts[0][k] as usize;
            strokes.push((p.st[at..at + n].to_vec(), p.counts[1][k] as usize));
            at += n;
        }
        End {
            events,
            raw: (0..p.raw()).map(|i| (p.rt[i], bits(p.rp[i]))).collect(),
            unfinished: (0..p.unfinished())
                .map(|i| (p.ut[i], bits(p.up[i]), p.uc[i]))
                .collect(),
            strokes,
        }
    }
}
