pub mod corr;
pub mod rounded;
