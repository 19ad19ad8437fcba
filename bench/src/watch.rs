//! What the measured calls of both sides go through: nothing but the calls is inside.

use std::cell::Cell;
use std::time::{Duration, Instant};

/// How often `timed_many` makes a call that is too short for the clock.
pub const MANY: u32 = 64;

thread_local! {
    static SPENT: Cell<Duration> = const { Cell::new(Duration::ZERO) };
}

/// Makes the call.
pub fn plain(call: &mut dyn FnMut()) {
    call();
}

/// Makes the call and adds its time to the time spent.
pub fn timed(call: &mut dyn FnMut()) {
    let start = Instant::now();
    call();
    let spent = start.elapsed();
    SPENT.set(SPENT.get() + spent);
}

/// The same, with the call made `MANY` times.
pub fn timed_many(call: &mut dyn FnMut()) {
    timed(&mut || (0..MANY).for_each(|_| call()));
}

/// The time spent since this was last asked.
pub fn take_spent() -> Duration {
    SPENT.take()
}

/// Makes the call. Callgrind counts while this runs.
#[unsafe(no_mangle)]
#[inline(never)]
pub fn bench_counted(call: &mut dyn FnMut()) {
    call();
}

/// Callgrind writes down what it has counted, and begins anew, when this ends.
#[unsafe(no_mangle)]
#[inline(never)]
pub fn bench_dump() {
    std::hint::black_box(());
}
