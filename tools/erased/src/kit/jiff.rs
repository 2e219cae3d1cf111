//! Times in UTC as texts, as in the crate jiff.

/// The number of nanoseconds since the start of 1970, from there to July 2554.
#[derive(Clone, Copy)]
pub struct Timestamp(u64);

impl Timestamp {
    /// Returns the time that is this number of nanoseconds after the start of 1970. Fails if the
    /// number is negative or does not fit 64 bits, as after July 2554.
    pub fn from_nanosecond(nanoseconds: i128) -> Result<Self, core::num::TryFromIntError> {
        u64::try_from(nanoseconds).map(Timestamp)
    }

    pub fn to_plain(self) -> Self {
        self
    }
}

pub mod fmt {
    pub mod temporal {
        use crate::kit::arrayvec::ArrayString;
        use crate::kit::jiff::{date, Timestamp};
        use core::fmt::Write;

        /// What writes times as ISO 8601.
        pub struct DateTimePrinter(());

        impl DateTimePrinter {
            pub fn new() -> Self {
                DateTimePrinter(())
            }

            /// Panics if the number of digits of the fraction of a second is not nine.
            pub fn precision(self, digits: Option<u8>) -> Self {
                assert!(digits == Some(9));
                self
            }

            /// Returns the time with nine digits of the fraction of a second, and `Z`.
            pub fn timestamp_text(&self, Timestamp(nanoseconds): Timestamp) -> ArrayString<33> {
                let seconds = nanoseconds / 1_000_000_000;
                let fraction = nanoseconds % 1_000_000_000;
                let (year, month, day) = date(seconds / 86_400);
                let (hour, minute, second) = (seconds / 3600 % 24, seconds / 60 % 60, seconds % 60);
                let mut text = ArrayString::new();
                write!(text, "{year}-{month:02}-{day:02}T{hour:02}:{minute:02}:{second:02}")
                    .and_then(|()| write!(text, ".{fraction:09}Z"))
                    .expect("a year up to 2554 has four digits");
                text
            }
        }
    }
}

/// Returns the year, month and day that begin this number of days after the start of 1970.
fn date(days: u64) -> (u64, u64, u64) {
    // Each 400 years have 146,097 days. The years here begin on the first of March, the first one
    // in year 0, which began 719,468 days before 1970.
    let days = days + 719_468;
    let (era, day_of_era) = (days / 146_097, days % 146_097);
    // The last day of 4, 100 and 400 years is a leap day, at the end of a year.
    let leaps = day_of_era / 1460 + day_of_era / 146_096 - day_of_era / 36_524;
    let year_of_era = (day_of_era - leaps) / 365;
    let day_of_year = day_of_era - (365 * year_of_era + year_of_era / 4 - year_of_era / 100);
    // Five months from March or August on have 153 days.
    let month = (5 * day_of_year + 2) / 153;
    let day = day_of_year - (153 * month + 2) / 5 + 1;
    if month < 10 {
        (400 * era + year_of_era, month + 3, day)
    } else {
        (400 * era + year_of_era + 1, month - 9, day)
    }
}
