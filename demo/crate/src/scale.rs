//! Scales of temperature.

/// Degrees Fahrenheit of degrees Celsius, rounded towards zero.
pub fn fahrenheit(celsius: i32) -> i32 {
    celsius * 9 / 5 + 32
}
