//! Temperatures and how warm they feel.

pub mod scale;

/// A temperature that was read somewhere.
pub struct Reading {
    /// Degrees Celsius.
    pub celsius: i32,
}

/// A reading of so many degrees Celsius.
pub fn reading(celsius: i32) -> Reading {
    Reading { celsius }
}

/// Whether one goes without a coat.
pub fn is_warm(reading: &Reading) -> bool {
    scale::fahrenheit(reading.celsius) > 60
}
