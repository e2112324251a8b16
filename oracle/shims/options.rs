//! Stands in for the command line's options: the fields that the built files read.

#[derive(Debug, Clone, Default)]
pub struct Options {
    pub preference_exponent: f64,
    pub critical_set_timeout_seconds: i32,
    pub no_critical_sets: bool,
    pub no_critical_set_simplification: bool,
    pub greedy: bool,
}
