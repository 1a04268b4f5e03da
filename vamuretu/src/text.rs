//! Texts of others, as people are shown them: no character changes the direction of a line, is unseen, or acts on a terminal.

use std::ffi::OsStr;
use std::fmt::Write;
use std::ops::RangeInclusive;
use std::os::unix::ffi::OsStrExt;

use serde_json::Value;

/// Letters, marks and signs that show nothing, though the standard library prints them.
const BLANK: [RangeInclusive<char>; 9] = [
    '\u{34f}'..='\u{34f}',
    '\u{115f}'..='\u{1160}',
    '\u{17b4}'..='\u{17b5}',
    '\u{180b}'..='\u{180f}',
    '\u{2800}'..='\u{2800}',
    '\u{3164}'..='\u{3164}',
    '\u{fe00}'..='\u{fe0f}',
    '\u{ffa0}'..='\u{ffa0}',
    '\u{e0100}'..='\u{e01ef}',
];

/// Whether a character is a control character, one that changes the direction of a line, or one that shows nothing.
pub fn is_hidden(it: char) -> bool {
    if it.is_ascii() {
        return it.is_ascii_control();
    }
    // Behind another character, `escape_debug` leaves marks as they are.
    format!("x{it}").escape_debug().count() > 2 || BLANK.iter().any(|blank| blank.contains(&it))
}

/// A name or another text as a line and a page have it: hidden characters are written out, as `\u{202e}`, and so is `\`.
pub fn spelled(text: &(impl AsRef<OsStr> + ?Sized)) -> String {
    let mut spelled = String::new();
    for it in text.as_ref().to_string_lossy().chars() {
        match it {
            '\\' => spelled.push_str("\\\\"),
            '\t' => spelled.push_str("\\t"),
            '\n' => spelled.push_str("\\n"),
            it if is_hidden(it) => spelled.extend(it.escape_unicode()),
            it => spelled.push(it),
        }
    }
    spelled
}

/// A value as JSON, whose hidden characters are written out as JSON does.
pub fn json(value: &Value) -> String {
    let mut text = String::new();
    // Outside of texts JSON has no such character.
    for it in value.to_string().chars() {
        if is_hidden(it) {
            let units = it.encode_utf16(&mut [0; 2]).to_vec();
            units.into_iter().for_each(|unit| write!(text, "\\u{unit:04x}").unwrap_or_default());
        } else {
            text.push(it);
        }
    }
    text
}

/// A word as a shell takes it for itself. A file's name is never an option: what begins with `-` stands behind `./`.
pub fn quoted(word: &(impl AsRef<OsStr> + ?Sized)) -> String {
    let front = if word.as_ref().as_bytes().starts_with(b"-") { "./" } else { "" };
    let bytes = [front.as_bytes(), word.as_ref().as_bytes()].concat();
    let is_plain = |it: &u8| it.is_ascii_alphanumeric() || b"._-/,:+=@%".contains(it);
    match String::from_utf8(bytes) {
        Ok(word) if !word.is_empty() && word.as_bytes().iter().all(is_plain) => word,
        Ok(word) if !word.chars().any(is_hidden) => format!("'{}'", word.replace('\'', "'\\''")),
        Ok(word) => octal(word.as_bytes()),
        Err(told) => octal(told.as_bytes()),
    }
}

/// A word as `$'..'` of bash, zsh and POSIX of 2024 takes it. For a shell that has no such words it is one word too.
fn octal(word: &[u8]) -> String {
    let byte = |it: &u8| match it {
        b'\'' | b'\\' => format!("\\{it:03o}"),
        b' '..=b'~' => char::from(*it).into(),
        it => format!("\\{it:03o}"),
    };
    format!("$'{}'", word.iter().map(byte).collect::<String>())
}

#[cfg(test)]
mod tests {
    use super::*;
    use serde_json::json;
    use std::path::Path;

    #[test]
    fn what_is_hidden() {
        let bidirectional =
            "\u{202a}\u{202b}\u{202c}\u{202d}\u{202e}\u{2066}\u{2067}\u{2068}\u{2069}\u{200e}\u{200f}\u{61c}";
        let unseen = "\u{200b}\u{200c}\u{200d}\u{2060}\u{feff}\u{ad}\u{2028}\u{2029}\u{85}\u{7f}\u{1b}\0\u{e0001}\u{3164}\u{fe0f}\u{2800}";
        for it in bidirectional.chars().chain(unseen.chars()) {
            assert!(is_hidden(it), "{it:?}");
        }
        for it in "aZ 0'\"\\~äßжא中अि\u{301}😀".chars() {
            assert!(!is_hidden(it), "{it:?}");
        }
    }

    #[test]
    fn names_that_people_see() {
        assert_eq!(spelled(Path::new("a\\b\tc\nd\u{1b}[31m")), "a\\\\b\\tc\\nd\\u{1b}[31m");
        assert_eq!(spelled("\u{202e}gnp.äא"), "\\u{202e}gnp.äא");
        let value = json!({ "\u{202e}a": "b\u{e0001}\u{7f}\nä" });
        assert_eq!(json(&value), r#"{"\u202ea":"b\udb40\udc01\u007f\nä"}"#);
        assert_eq!(serde_json::from_str::<Value>(&json(&value)).expect("JSON"), value);
    }

    #[test]
    fn words_for_a_shell() {
        for (word, wanted) in [
            ("0/3.node-1.evidence", "0/3.node-1.evidence"),
            ("a'; rm -rf b", "'a'\\''; rm -rf b'"),
            ("--help", "./--help"),
            ("", "''"),
            ("0; touch pwned #", "'0; touch pwned #'"),
            ("a\u{202e}'\n\\", "$'a\\342\\200\\256\\047\\012\\134'"),
        ] {
            assert_eq!(quoted(word), wanted);
        }
        assert_eq!(quoted(OsStr::from_bytes(b"a \xff")), "$'a \\377'");
    }
}
