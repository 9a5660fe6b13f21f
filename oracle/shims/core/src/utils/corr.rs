//! Stub: the names that get_rsq needs to compile. get_rsq is not ported and must not be asked.
pub struct Fit {
    pub r2: f64,
}

pub trait LinearRegression {
    fn single_linear(&self) -> Fit;
}

impl LinearRegression for Vec<f64> {
    fn single_linear(&self) -> Fit {
        panic!("get_rsq is not ported")
    }
}
