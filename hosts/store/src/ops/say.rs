//! What the store logs for whoever started it: lines on standard error, each with its time, its level and the replica.
use std::io::Write;
use std::sync::OnceLock;
use std::time::{Duration, SystemTime, UNIX_EPOCH};

static REPLICA: OnceLock<u8> = OnceLock::new();

/// How much a line matters.
#[derive(Clone, Copy)]
enum Level {
    Info,
    /// Something isn't as it should be, and the store goes on.
    Warn,
    /// The store ends, or can't do what it was asked to do.
    Error,
}

/// From now on lines name this replica.
pub fn name(replica: u8) {
    let _ = REPLICA.set(replica);
}

/// Writes a line of what happens.
pub fn say(line: &str) {
    write(Level::Info, line);
}

/// Writes a line of what isn't as it should be, while the store goes on.
pub fn warn(line: &str) {
    write(Level::Warn, line);
}

/// Writes a line of why the store ends, or doesn't begin.
pub fn error(line: &str) {
    write(Level::Error, line);
}

/// Writes a line, in one go, as other stores may write to the same place. Where standard error is closed nobody reads
/// it.
fn write(level: Level, line: &str) {
    let who = REPLICA.get().map_or(String::new(), |replica| format!(" {replica}"));
    let level = match level {
        Level::Info => "INFO",
        Level::Warn => "WARN",
        Level::Error => "ERROR",
    };
    let now = time(SystemTime::now().duration_since(UNIX_EPOCH).unwrap_or_default());
    let _ = std::io::stderr().lock().write_all(format!("{now} {level} store{who}: {line}\n").as_bytes());
}

/// The time so long after 1970 began, of UTC, as RFC 3339 writes it: `2026-11-28T03:44:01.123Z`.
fn time(since: Duration) -> String {
    let (seconds, milliseconds) = (since.as_secs(), since.subsec_millis());
    let (days, second) = (seconds / 86_400, seconds % 86_400);
    let (hour, minute, second) = (second / 3_600, second / 60 % 60, second % 60);
    // Years are counted from March 1 on, so that a leap day is a year's last: 400 of them have 146,097 days.
    let days = days + 719_468;
    let day = days % 146_097;
    let year = (day - day / 1_460 + day / 36_524 - day / 146_096) / 365;
    let day = day - (365 * year + year / 4 - year / 100);
    let month = (5 * day + 2) / 153;
    let date = day - (153 * month + 2) / 5 + 1;
    let (month, next) = if month < 10 { (month + 3, 0) } else { (month - 9, 1) };
    let year = year + days / 146_097 * 400 + next;
    format!("{year:04}-{month:02}-{date:02}T{hour:02}:{minute:02}:{second:02}.{milliseconds:03}Z")
}

#[cfg(test)]
mod tests {
    use super::*;

    #[test]
    fn times_are_those_of_date() {
        // (by `date -u -d @SECONDS +%FT%T`)
        for (seconds, wanted) in [
            (0, "1970-01-01T00:00:00.250Z"),
            (951_782_399, "2000-02-28T23:59:59.250Z"),
            (951_782_400, "2000-02-29T00:00:00.250Z"),
            (951_868_800, "2000-03-01T00:00:00.250Z"),
            (1_735_689_599, "2024-12-31T23:59:59.250Z"),
            (1_795_837_441, "2026-11-28T03:44:01.250Z"),
            (4_107_542_400, "2100-03-01T00:00:00.250Z"),
            (253_402_300_799, "9999-12-31T23:59:59.250Z"),
        ] {
            assert_eq!(time(Duration::from_millis(seconds * 1_000 + 250)), wanted);
        }
    }
}
