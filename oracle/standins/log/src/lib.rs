//! Stands in for `log`: nothing is logged, but the arguments are still type-checked.

#[macro_export]
macro_rules! debug {
    ($($arg:tt)+) => {
        if false {
            let _ = format_args!($($arg)+);
        }
    };
}
