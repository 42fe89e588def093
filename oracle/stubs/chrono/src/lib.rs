//! Stand-in for chrono: a time is a count of whole seconds since 1970, and `Utc::now` is the clock set last on this thread.
use std::cell::Cell;
use std::marker::PhantomData;
use std::ops::Sub;

thread_local!(static CLOCK: Cell<i64> = const { Cell::new(0) });

pub fn set_clock(seconds: i64) {
    CLOCK.with(|c| c.set(seconds));
}

#[derive(Debug, Clone, Copy, PartialEq, Eq)]
pub struct Utc;

#[derive(Debug, Clone, Copy, PartialEq, Eq)]
pub struct DateTime<Tz> {
    seconds: i64,
    zone: PhantomData<Tz>,
}

#[derive(Debug, Clone, Copy, PartialEq, Eq)]
pub struct TimeDelta(i64);

impl Utc {
    pub fn now() -> DateTime<Utc> {
        DateTime { seconds: CLOCK.with(Cell::get), zone: PhantomData }
    }
}

impl DateTime<Utc> {
    pub fn from_timestamp(seconds: i64, _nanoseconds: u32) -> Option<Self> {
        Some(DateTime { seconds, zone: PhantomData })
    }

    pub fn timestamp(&self) -> i64 {
        self.seconds
    }
}

impl Sub for DateTime<Utc> {
    type Output = TimeDelta;

    fn sub(self, other: Self) -> TimeDelta {
        TimeDelta(self.seconds - other.seconds)
    }
}

impl TimeDelta {
    pub fn num_seconds(&self) -> i64 {
        self.0
    }
}
