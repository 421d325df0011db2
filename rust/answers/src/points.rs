//! An input as a line: its code points in upper-case hex, with one space between two.

/// The line of a text.
pub fn line_of(text: &str) -> String {
    let points: Vec<String> = text.chars().map(|c| format!("{:X}", c as u32)).collect();
    points.join(" ")
}

/// The text of a line, or the first word of the line that is not a Unicode scalar value in hex.
pub fn text_of(line: &str) -> Result<String, &str> {
    let point = |word| {
        u32::from_str_radix(word, 16)
            .ok()
            .and_then(char::from_u32)
            .ok_or(word)
    };
    line.split_whitespace().map(point).collect()
}

#[cfg(test)]
mod tests {
    use super::{line_of, text_of};

    #[test]
    fn a_line_is_read_back() {
        for (text, line) in [
            ("", ""),
            ("Ć1Ź", "106 31 179"),
            ("À\u{0}\u{10FFFF}", "C0 0 10FFFF"),
        ] {
            assert_eq!(line_of(text), line);
            assert_eq!(text_of(line), Ok(text.to_string()));
        }
    }

    #[test]
    fn a_word_that_is_not_a_scalar_value() {
        assert_eq!(text_of("C0 D800 41"), Err("D800"));
        assert_eq!(text_of("110000"), Err("110000"));
        assert_eq!(text_of("C0 zz"), Err("zz"));
    }
}
