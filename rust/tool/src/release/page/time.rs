//! Moments in words.

const DAY: u64 = 86_400;

/// A moment in seconds since 1970, as date and time of day in UTC.
pub fn utc(seconds: u64) -> String {
    let (year, month, day) = date(seconds / DAY);
    let [hours, minutes, left] = [seconds / 3600 % 24, seconds / 60 % 60, seconds % 60];
    format!("{year}-{month:02}-{day:02} {hours:02}:{minutes:02}:{left:02} UTC")
}

/// The date so many days after the first of January 1970. Years are taken to begin in March, so that the
/// leap day is a year's last.
fn date(days: u64) -> (u64, u64, u64) {
    // Days since the first of March of the year 0, in spans of 400 years, which are all of one length.
    let days = days + 719_468;
    let (span, day) = (days / 146_097, days % 146_097);
    let year = (day - day / 1460 + day / 36_524 - day / 146_096) / 365;
    let of_year = day - (365 * year + year / 4 - year / 100);
    let month = (5 * of_year + 2) / 153;
    let of_month = of_year - (153 * month + 2) / 5 + 1;
    let (turn, month) = if month < 10 { (0, month + 3) } else { (1, month - 9) };
    (400 * span + year + turn, month, of_month)
}
