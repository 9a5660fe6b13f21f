//! The numbers that are rounded, by an analyzer's places. The Rust's own functions round to 2 and 4 places. For others the same value, not yet
//! rounded, goes to the Rust's own `round_to_nth_digit`.
use czsc_core::analyze::utils::GapInfo;
use czsc_core::objects::{bi::BI, fake_bi::FakeBI};
use czsc_core::utils::rounded::RoundToNthDigit;

/// The most places of either kind.
pub const MOST: u64 = 6;

#[derive(Clone, Copy)]
pub struct Places {
    pub power: usize,
    pub ratio: usize,
}

/// What the Rust itself rounds to, and what `n` means.
pub const RUST: Places = Places { power: 2, ratio: 4 };

fn same(a: f64, b: f64) -> bool {
    a.to_bits() == b.to_bits() || (a.is_nan() && b.is_nan())
}

/// The Rust's own answer at its own places, the value rounded here at others. At its own places the value is rounded here too, on every
/// call: if the Rust's answer is another one, the driver ends, since then it is not the Rust's value that is rounded.
fn rounded(what: &str, value: f64, own: f64, own_places: usize, places: usize) -> f64 {
    let again = value.round_to_nth_digit(own_places);
    if !same(again, own) {
        eprintln!("driver: {what}: the Rust has {own:?}, rounded here it is {again:?}");
        std::process::exit(3);
    }
    if places == own_places {
        own
    } else {
        value.round_to_nth_digit(places)
    }
}

impl Places {
    fn by_power(self, what: &str, value: f64, own: f64) -> f64 {
        rounded(what, value, own, RUST.power, self.power)
    }

    fn by_ratio(self, what: &str, value: f64, own: f64) -> f64 {
        rounded(what, value, own, RUST.ratio, self.ratio)
    }

    pub fn power_price(self, bi: &BI) -> f64 {
        let value = (bi.fx_b.fx - bi.fx_a.fx).abs();
        self.by_power("get_power_price", value, bi.get_power_price())
    }

    pub fn power_snr(self, bi: &BI) -> f64 {
        self.by_ratio("get_power_snr", bi.get_snr(), bi.get_power_snr())
    }

    /// For a start of zero the Rust answers 0.0 without rounding.
    pub fn change(self, bi: &BI) -> f64 {
        if bi.fx_a.fx == 0.0 {
            return bi.get_change();
        }
        let value = (bi.fx_b.fx - bi.fx_a.fx) / bi.fx_a.fx;
        self.by_ratio("get_change", value, bi.get_change())
    }

    /// Up or down, the Rust takes the low that it stores from the high that it stores.
    pub fn fake_power(self, b: &FakeBI) -> f64 {
        self.by_power("create_fake_bis", b.high - b.low, b.power)
    }

    /// Up or down, the Rust divides the higher edge by the lower one.
    pub fn gap_ratio(self, gap: &GapInfo) -> f64 {
        self.by_ratio("check_gap_info", gap.high / gap.low - 1.0, gap.delta)
    }
}
