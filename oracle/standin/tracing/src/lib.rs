//! Stand-in for `tracing`: traces nothing.

#[macro_export]
macro_rules! trace {
    ($($argument:tt)*) => {};
}
