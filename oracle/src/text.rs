//! The text of a script: lines, words, numbers and bytes.

/// A longer line is a bad line, whatever it holds.
pub const LONGEST_LINE: usize = 200_000;
/// An output's bytes before a call.
const UNTOUCHED: u8 = 0xee;

/// What one line of a script asks for.
#[derive(Debug, PartialEq)]
pub enum Line<'a> {
    Skipped,
    TooLong,
    Words(Vec<&'a [u8]>),
}

/// The lines of a script. A last line needs no line feed; an empty piece after the last one is no line.
pub fn lines(script: &[u8]) -> impl Iterator<Item = &[u8]> {
    let whole = script.strip_suffix(b"\n").unwrap_or(script);
    let none = script.is_empty();
    whole.split(|&c| c == b'\n').filter(move |_| !none)
}

pub fn words(line: &[u8]) -> Line<'_> {
    if line.len() > LONGEST_LINE {
        return Line::TooLong;
    }
    let end = line.iter().position(|&c| c == b'#').unwrap_or(line.len());
    let mut rest = &line[..end];
    while let Some(shorter) = rest.strip_suffix(b" ") {
        rest = shorter;
    }
    if rest.is_empty() {
        return Line::Skipped;
    }
    // Two spaces in a row make an empty word, which is no number, no bytes and no call.
    Line::Words(rest.split(|&c| c == b' ').collect())
}

pub fn number(word: &[u8]) -> Option<u64> {
    let (digits, base) = match word.strip_prefix(b"0x") {
        Some(digits) => (digits, 16),
        None => (word, 10),
    };
    if digits.is_empty() {
        return None;
    }
    digits.iter().try_fold(0u64, |value, &c| {
        let digit = char::from(c).to_digit(base)?;
        value
            .checked_mul(u64::from(base))?
            .checked_add(u64::from(digit))
    })
}

pub fn number32(word: &[u8]) -> Option<u32> {
    u32::try_from(number(word)?).ok()
}

/// A number that is 0 or 1.
pub fn flag(word: &[u8]) -> Option<bool> {
    match number(word)? {
        0 => Some(false),
        1 => Some(true),
        _ => None,
    }
}

pub fn bytes(word: &[u8]) -> Option<Vec<u8>> {
    if word == b"-" {
        return Some(Vec::new());
    }
    if word.is_empty() || word.len() % 2 == 1 {
        return None;
    }
    let digit = |c: u8| char::from(c).to_digit(16);
    word.chunks(2)
        .map(|pair| Some((digit(pair[0])? * 16 + digit(pair[1])?) as u8))
        .collect()
}

/// An output of as many bytes as the word says, at most so many, none of them touched yet.
pub fn output(size: &[u8], largest: u64) -> Option<Vec<u8>> {
    let size = number(size).filter(|&size| size <= largest)?;
    Some(vec![UNTOUCHED; size as usize])
}

pub fn hex(bytes: &[u8]) -> String {
    if bytes.is_empty() {
        return "-".to_string();
    }
    bytes.iter().map(|b| format!("{b:02x}")).collect()
}

#[cfg(test)]
mod tests {
    use super::*;

    fn split(line: &str) -> Line<'_> {
        words(line.as_bytes())
    }

    #[test]
    fn a_last_line_needs_no_line_feed() {
        let of = |s: &'static str| lines(s.as_bytes()).collect::<Vec<_>>();
        assert_eq!(of(""), Vec::<&[u8]>::new());
        assert_eq!(of("\n"), [b""]);
        assert_eq!(of("a\nb"), [b"a", b"b"]);
        assert_eq!(of("a\nb\n"), [b"a", b"b"]);
        assert_eq!(of("a\n\n"), [b"a".as_slice(), b""]);
    }

    #[test]
    fn comments_and_trailing_spaces_are_cut() {
        for line in ["", " ", "   ", "#", "# new", "  # new"] {
            assert_eq!(split(line), Line::Skipped, "{line:?}");
        }
        let one = || Line::Words(vec![b"new".as_slice()]);
        for line in ["new", "new ", "new   ", "new#", "new # a # b"] {
            assert_eq!(split(line), one(), "{line:?}");
        }
    }

    #[test]
    fn other_spaces_make_empty_words() {
        assert_eq!(split(" new"), Line::Words(vec![b"", b"new"]));
        assert_eq!(split("a  b"), Line::Words(vec![b"a".as_slice(), b"", b"b"]));
        assert_eq!(split("a\tb\r"), Line::Words(vec![b"a\tb\r".as_slice()]));
    }

    #[test]
    fn an_output_is_as_long_as_its_word_says() {
        assert_eq!(output(b"0", 2), Some(vec![]));
        assert_eq!(output(b"2", 2), Some(vec![0xee; 2]));
        assert_eq!(output(b"3", 2), None);
        assert_eq!(output(b"x", 2), None);
    }

    #[test]
    fn the_longest_line_counts_its_comment() {
        let mut line = vec![b'#'; LONGEST_LINE];
        assert_eq!(words(&line), Line::Skipped);
        line.push(b'#');
        assert_eq!(words(&line), Line::TooLong);
        assert_eq!(words(&[b' '; LONGEST_LINE + 1]), Line::TooLong);
    }

    #[test]
    fn numbers() {
        let of = |s: &str| number(s.as_bytes());
        assert_eq!(of("0"), Some(0));
        assert_eq!(of("0014"), Some(14));
        assert_eq!(of("0xaBc"), Some(0xabc));
        assert_eq!(of("18446744073709551615"), Some(u64::MAX));
        assert_eq!(of("0x0000000000ffffffffffffffff"), Some(u64::MAX));
        let bad = ["", "0x", "0X1", "-1", "+1", "1a", "0xg", "1_0", "x1"];
        for word in bad {
            assert_eq!(of(word), None, "{word:?}");
        }
        assert_eq!(of("18446744073709551616"), None);
        assert_eq!(of("0x10000000000000000"), None);
    }

    #[test]
    fn narrower_numbers() {
        assert_eq!(number32(b"4294967295"), Some(u32::MAX));
        assert_eq!(number32(b"4294967296"), None);
        assert_eq!(flag(b"0x01"), Some(true));
        assert_eq!(flag(b"000"), Some(false));
        assert_eq!(flag(b"2"), None);
        assert_eq!(flag(b"-"), None);
    }

    #[test]
    fn byte_strings() {
        let of = |s: &str| bytes(s.as_bytes());
        assert_eq!(of("-"), Some(vec![]));
        assert_eq!(of("00aBFf"), Some(vec![0, 0xab, 0xff]));
        for word in ["", "a", "abc", "0x", "--", "-a", "gg"] {
            assert_eq!(of(word), None, "{word:?}");
        }
        assert_eq!(hex(&[]), "-");
        assert_eq!(hex(&[0, 0xab]), "00ab");
    }
}
