//! Numbers as JSON has them, and which of them a reader that keeps numbers as binary64 does not change.

use std::cmp::Ordering;
use yay::compare;

/// Whole numbers up to these are exact in binary64.
const LEAST: &[u8] = b"-9007199254740991";
const MOST: &[u8] = b"9007199254740991";
/// So many decimal digits survive binary64.
const DIGITS: usize = 15;

pub fn is_exact_integer(integer: &[u8]) -> bool {
    let above = compare(integer, LEAST).is_ok_and(Ordering::is_ge);
    above && compare(integer, MOST).is_ok_and(Ordering::is_le)
}

pub fn is_exact_float(text: &str) -> bool {
    let digits: String = text.split('e').next().unwrap_or_default().chars().filter(char::is_ascii_digit).collect();
    let significant = digits.trim_matches('0').len();
    let is_normal = text.parse().is_ok_and(f64::is_normal);
    significant == 0 || is_normal && significant <= DIGITS
}

/// A float as a JSON number of the same digits; keywords are none.
pub fn float(text: &str) -> Option<String> {
    let (sign, size) = text.strip_prefix('-').map_or(("", text), |size| ("-", size));
    let (digits, exponent) = size.split_once('e').map_or((size, None), |(digits, power)| (digits, Some(power)));
    let (whole, part) = digits.split_once('.').unwrap_or((digits, ""));
    if ![whole, part].concat().bytes().all(|byte| byte.is_ascii_digit()) {
        return None;
    }
    let whole = whole.trim_start_matches('0');
    let whole = if whole.is_empty() { "0" } else { whole };
    let part = if part.is_empty() && exponent.is_some() { "".into() } else { format!(".{part:0<1}") };
    let exponent = exponent.map_or(String::new(), |power| format!("e{power}"));
    Some(format!("{sign}{whole}{part}{exponent}"))
}

#[cfg(test)]
mod tests {
    use super::*;

    #[test]
    fn integers_that_binary64_keeps() {
        for (integer, kept) in [("9007199254740991", true), ("-9007199254740991", true), ("9007199254740992", false)] {
            assert_eq!(is_exact_integer(integer.as_bytes()), kept, "{integer}");
        }
        assert!(!is_exact_integer(b"-9007199254740992"));
    }

    #[test]
    fn floats_that_binary64_keeps() {
        for kept in ["0.15", "-00.50", "5e3", "0.e-9", "123456789.012345", "1e300"] {
            assert!(is_exact_float(kept), "{kept}");
        }
        for lost in ["1e999", "1e-999", "0.1234567890123456"] {
            assert!(!is_exact_float(lost), "{lost}");
        }
    }

    #[test]
    fn floats_take_json_forms() {
        for (text, json) in [
            ("1.", "1.0"),
            (".5", "0.5"),
            ("-00.50", "-0.50"),
            ("5e3", "5e3"),
            ("0.e-9", "0e-9"),
            ("007.5e+2", "7.5e+2"),
            ("1e999", "1e999"),
        ] {
            assert_eq!(float(text).as_deref(), Some(json), "{text}");
        }
        assert_eq!((float("nan"), float("-infinity")), (None, None));
    }
}
