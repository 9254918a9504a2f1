//! A kettle, which asks the crate `temperature`.

/// Whether the water is ready for tea.
pub fn is_ready(celsius: i32) -> bool {
    temperature::scale::fahrenheit(celsius) > 175
}
