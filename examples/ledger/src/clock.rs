//! How long the program waits, and for what it gives up.

use std::time::{Duration, Instant};

/// Why a part of the program gave up.
pub type Fault = Box<dyn std::error::Error + Send + Sync>;

/// When the program gives up.
#[derive(Clone, Copy)]
pub struct Clock {
    end: Instant,
}

impl Clock {
    pub fn new(patience: Duration) -> Clock {
        Clock { end: Instant::now() + patience }
    }

    /// Waits a little. Refused once the time is over.
    pub fn pause(&self) -> Result<(), Fault> {
        if Instant::now() > self.end {
            return Err("it took too long".into());
        }
        std::thread::sleep(Duration::from_micros(200));
        Ok(())
    }
}
