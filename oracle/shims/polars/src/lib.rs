//! Stub: the names that the ported files import. The one function that uses frames is cut.
pub mod error {
    #[derive(Debug)]
    pub struct PolarsError;

    impl std::fmt::Display for PolarsError {
        fn fmt(&self, f: &mut std::fmt::Formatter<'_>) -> std::fmt::Result {
            f.write_str("polars")
        }
    }

    impl std::error::Error for PolarsError {}
}

pub mod frame {
    pub struct DataFrame;
}

pub mod prelude {
    pub enum TimeUnit {}
}
