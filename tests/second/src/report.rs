//! The night report: text in, text out.

use crate::{message, reconcile};
use std::fmt::Write;

pub const MOST_BYTES: usize = 60_000;
pub const MOST_KEYS: usize = 8_192;

/// What the program writes for an input.
pub fn report(input: &[u8]) -> String {
    if input.len() > MOST_BYTES {
        return "too long\n".into();
    }
    let (home, message) = match lines(input) {
        Ok(parts) => parts,
        Err(line) => return format!("bad line {line}\n"),
    };
    let answer = message::read(&message).and_then(|sketch| {
        let samples = sketch.values.len();
        reconcile::reconcile(&sketch, &home, samples, samples).map(|difference| (sketch, difference))
    });
    match answer {
        Err(refusal) => format!("refused {} at {}\n", refusal.number, refusal.place),
        Ok((sketch, difference)) => {
            let mut text = format!("plan {} peer {} own {}\n", sketch.plan, sketch.size, home.len());
            for (name, keys) in [("theirs", difference.theirs), ("ours", difference.ours)] {
                write!(text, "{name} {}:", keys.len()).unwrap();
                keys.iter().for_each(|key| write!(text, " {key}").unwrap());
                text.push('\n');
            }
            text
        }
    }
}

/// Home list and message, or the number of the first bad line.
fn lines(input: &[u8]) -> Result<(Vec<u32>, Vec<u8>), u8> {
    // What follows the last newline is the last part: an input of two whole lines has three, the third empty.
    let parts: Vec<&[u8]> = input.splitn(3, |&byte| byte == b'\n').collect();
    if parts.len() < 2 {
        return Err(1);
    }
    let home = have(parts[0]).ok_or(1)?;
    if parts.len() < 3 {
        return Err(2);
    }
    let message = hex(parts[1]).ok_or(2)?;
    if !parts[2].is_empty() {
        return Err(3);
    }
    Ok((home, message))
}

fn have(line: &[u8]) -> Option<Vec<u32>> {
    let mut words = line.split(|&byte| byte == b' ');
    if words.next() != Some(b"have") {
        return None;
    }
    let keys: Option<Vec<u32>> = words.map(key).collect();
    keys.filter(|keys| keys.len() <= MOST_KEYS)
}

fn key(word: &[u8]) -> Option<u32> {
    let decimal = (1..=9).contains(&word.len()) && word.iter().all(u8::is_ascii_digit);
    decimal.then(|| std::str::from_utf8(word).unwrap().parse().unwrap())
}

fn hex(line: &[u8]) -> Option<Vec<u8>> {
    let digits = line.strip_prefix(b"message ")?;
    if digits.len() % 2 != 0 || !digits.iter().all(|digit| b"0123456789abcdef".contains(digit)) {
        return None;
    }
    Some(digits.chunks(2).map(|pair| u8::from_str_radix(std::str::from_utf8(pair).unwrap(), 16).unwrap()).collect())
}

#[cfg(test)]
mod tests {
    use super::*;

    const MESSAGE: &str = "message 110002fffd7ffe00\n";

    fn of(text: &str) -> String {
        report(text.as_bytes())
    }

    #[test]
    fn the_example() {
        assert_eq!(of(&format!("have 1\n{MESSAGE}")), "plan 1 peer 1 own 1\ntheirs 1: 3\nours 1: 1\n");
        assert_eq!(of("have\nmessage 1000000001\n"), "plan 0 peer 0 own 0\ntheirs 0:\nours 0:\n");
    }

    #[test]
    fn bad_line_1() {
        let first = ["", "have", "have 1", " have 1\n", "Have 1\n", "have  1\n", "have 1 \n", "have \n", "have\t1\n", "have 1\r\n", "have +1\n", "have 0000000001\n", "have1\n", "havex 1\n", "\n", "message 10\n", "have 1x\n", "have -1\n"];
        for text in first {
            assert_eq!(of(&format!("{text}{}", if text.ends_with('\n') { MESSAGE } else { "" })), "bad line 1\n", "{text:?}");
        }
    }

    #[test]
    fn bad_line_2() {
        let second = ["", "message 110002fffd7ffe00", "message\n", "message 1\n", "message 1A\n", "message 10\r\n", "message 10 \n", "message  10\n", "Message 10\n", "\n", "message 1g\n", " message 10\n", "message\t10\n"];
        for text in second {
            assert_eq!(of(&format!("have 1\n{text}")), "bad line 2\n", "{text:?}");
        }
    }

    #[test]
    fn bad_line_3_and_limits() {
        assert_eq!(of(&format!("have 1\n{MESSAGE}\n")), "bad line 3\n");
        assert_eq!(of("have 2 1\nmessage \nx"), "bad line 3\n");
        assert_eq!(of("have 2 1\nmessage \n"), "refused 7 at 0\n");
        assert_eq!(of(&format!("have 2 1\n{MESSAGE}")), "refused 4 at 1\n");
        assert_eq!(of(&format!("have 000000001\n{MESSAGE}")), "plan 1 peer 1 own 1\ntheirs 1: 3\nours 1: 1\n");
        assert_eq!(of(&format!("have 999999999\n{MESSAGE}")), "refused 3 at 0\n");
        assert_eq!(of(&format!("have{}\n{MESSAGE}", " 7".repeat(8_192))), "refused 4 at 1\n");
        assert_eq!(of(&format!("have{}\n{MESSAGE}", " 7".repeat(8_193))), "bad line 1\n");
        assert_eq!(of(&"x".repeat(60_000)), "bad line 1\n");
        assert_eq!(of(&"x".repeat(60_001)), "too long\n");
    }
}
