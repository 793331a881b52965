//! The one wait that is asked of `embassy_time`: noted, not waited for.

pub struct Duration(u64);

impl Duration {
    pub const fn from_micros(micros: u64) -> Self {
        Self(micros)
    }
}

pub fn block_for(duration: Duration) {
    record::aside(format!("wait {} us", duration.0));
}
