//! The time after which a key lets nobody in, as `expiry-time` of authorized_keys has it.

use std::time::{SystemTime, UNIX_EPOCH};

/// YYYYMMDD, YYYYMMDDHHMM or YYYYMMDDHHMMSS in local time, or in that of UTC with a Z behind it, as seconds since 1970.
pub fn read(text: &str) -> Option<i64> {
    let (digits, is_utc) = match text.strip_suffix(['Z', 'z']) {
        Some(digits) => (digits, true),
        None => (text, false),
    };
    if ![8, 12, 14].contains(&digits.len()) || !digits.bytes().all(|it| it.is_ascii_digit()) {
        return None;
    }
    let field = |from: usize, to: usize| digits.get(from..to).map_or(Some(0), |it| it.parse::<libc::c_int>().ok());
    // SAFETY: zeros are a time.
    let mut time: libc::tm = unsafe { std::mem::zeroed() };
    (time.tm_year, time.tm_mon, time.tm_mday) = (field(0, 4)? - 1900, field(4, 6)? - 1, field(6, 8)?);
    (time.tm_hour, time.tm_min, time.tm_sec) = (field(8, 10)?, field(10, 12)?, field(12, 14)?);
    time.tm_isdst = -1;
    let (month, day, hour) = (time.tm_mon, time.tm_mday, time.tm_hour);
    if !(0..60).contains(&time.tm_min) || !(0..60).contains(&time.tm_sec) || !(0..24).contains(&hour) {
        return None;
    }
    // SAFETY: both read and write this one value.
    let seconds = unsafe {
        if is_utc {
            libc::timegm(&mut time)
        } else {
            libc::mktime(&mut time)
        }
    };
    // a day that its month has not becomes one of the next
    ((time.tm_mon, time.tm_mday) == (month, day)).then_some(seconds)
}

/// Seconds since 1970.
pub fn now() -> i64 {
    SystemTime::now().duration_since(UNIX_EPOCH).map_or(0, |it| it.as_secs() as i64)
}

#[cfg(test)]
mod tests {
    use super::*;

    #[test]
    fn times() {
        assert_eq!(read("19700101Z"), Some(0));
        assert_eq!(read("200102030405Z"), Some(981_173_100));
        assert_eq!(read("20010203040506Z"), Some(981_173_106));
        assert_eq!(read("20240229z"), Some(1_709_164_800));
        assert!(read("20240229").is_some() && (read("20240229").unwrap_or(0) - 1_709_164_800).abs() <= 14 * 3600);
        for bad in [
            "",
            "Z",
            "2024",
            "20230229Z",
            "20241301Z",
            "20240100Z",
            "202401012400Z",
            "202401010060Z",
            "2024010١",
            "+2024010Z",
            "202401011",
        ] {
            assert_eq!(read(bad), None, "{bad}");
        }
    }
}
