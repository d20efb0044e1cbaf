//! The types of errors.

use core::fmt;

/// Why a configuration is not applied.
#[derive(Clone, Copy, Debug, PartialEq, Eq)]
pub enum ConfigurationError {
    /// The item at this place, counted from 0, is the first that names an input above 63.
    AbsentInput { place: usize },
    /// There are more than 255 items.
    TooManyItems,
}

impl fmt::Display for ConfigurationError {
    fn fmt(&self, formatter: &mut fmt::Formatter<'_>) -> fmt::Result {
        match self {
            ConfigurationError::AbsentInput { place } => {
                write!(formatter, "item {place} names an input above 63")
            }
            ConfigurationError::TooManyItems => formatter.write_str("more than 255 items"),
        }
    }
}

#[cfg(feature = "std")]
impl std::error::Error for ConfigurationError {}

#[cfg(feature = "std")]
impl std::error::Error for crate::Fault {}
