pub mod bar;
pub mod bi;
pub mod direction;
pub mod fake_bi;
pub mod freq;
pub mod fx;
pub mod mark;
pub mod zs;
