//! The job line ("The printed plan"): what is readable, and the place of refusal 10.

use crate::plan::Job;
use crate::refusal::{Refusal, TEXT};

/// The numbers of the text if it is a readable line: 2 to 17 numbers with one space between, a
/// newline after the last and nothing behind it. "The text line may end with d thicknesses, so that it
/// has up to 17 numbers" (document 02, g).
pub fn readable(text: &[u8]) -> Option<Vec<u32>> {
    let line = text.strip_suffix(b"\n")?;
    let words = line.split(|&byte| byte == b' ');
    let numbers: Vec<u32> = words.map(number).collect::<Option<_>>()?;
    (2..=17).contains(&numbers.len()).then_some(numbers)
}

/// "A number has no sign and no leading zero (0 itself is "0") and is at most 4,294,967,295": the
/// words that are some 32-bit number as it is printed.
fn number(word: &[u8]) -> Option<u32> {
    let value: u32 = std::str::from_utf8(word).ok()?.parse().ok()?;
    (value.to_string().as_bytes() == word).then_some(value)
}

/// Does some readable line begin with this text?
///
/// It is enough to try five endings. What a readable line begins with is a readable line itself, or
/// stops in or after a number, or before one. Stopping in or after a number it is ended by the
/// newline, or by one more number if it has only one; the digits so far are a number, since what a
/// number begins with is one. Stopping before a number it is ended by 0, and nothing at all by two
/// numbers.
pub fn begins_a_readable_line(text: &[u8]) -> bool {
    let endings: [&[u8]; 5] = [b"", b"\n", b" 0\n", b"0\n", b"0 0\n"];
    let ended = |ending: &&[u8]| readable(&[text, ending].concat()).is_some();
    endings.iter().any(ended)
}

/// "The place is the length of the shortest beginning of the input that begins no readable line,
/// or, if there is none, the input's length plus 1."
pub fn place_of_refusal(input: &[u8]) -> usize {
    (0..=input.len())
        .find(|&length| !begins_a_readable_line(&input[..length]))
        .unwrap_or(input.len() + 1)
}

/// The numbers of the input, or refusal 10.
pub fn read(input: &[u8]) -> Result<Vec<u32>, Refusal> {
    readable(input).ok_or_else(|| Refusal::at(TEXT, place_of_refusal(input)))
}

/// The job of the input, or refusal 10: "p, d, the extents, the weights", and "the text line may end
/// with d thicknesses". Extents and weights are d numbers each, as far as the numbers reach, and the
/// rest are thicknesses. So if there are "neither 2*d nor 3*d after d", a list has a wrong length, and
/// else none has.
pub fn job(input: &[u8]) -> Result<Job, Refusal> {
    let numbers = read(input)?;
    let (p, d, rest) = (numbers[0], numbers[1], &numbers[2..]);
    let (extents, rest) = rest.split_at(rest.len().min(d as usize));
    let (weights, least) = rest.split_at(rest.len().min(d as usize));
    Ok(Job {
        p,
        d,
        extents: extents.to_vec(),
        weights: weights.to_vec(),
        least: least.to_vec(),
    })
}

#[cfg(test)]
mod tests {
    use super::*;
    use crate::cases::texts;
    use crate::refusal::LENGTHS;

    /// A line of so many numbers.
    fn zeros(count: usize) -> Vec<u8> {
        (vec!["0"; count].join(" ") + "\n").into_bytes()
    }

    #[test]
    fn readable_lines() {
        assert_eq!(readable(b"4 2\n"), Some(vec![4, 2]));
        assert_eq!(readable(b"0 4294967295\n"), Some(vec![0, u32::MAX]));
        for count in 2..=17 {
            assert_eq!(readable(&zeros(count)), Some(vec![0; count]));
        }
        for count in [0, 1, 18, 19, 34] {
            assert_eq!(readable(&zeros(count)), None, "{count}");
        }
        let unreadable: [&[u8]; 11] = [
            b"",
            b"\n",
            b"4\n",
            b"4 2",
            b"4  2\n",
            b" 4 2\n",
            b"4 2 \n",
            b"4 02\n",
            b"4 +2\n",
            b"4 2\n\n",
            b"4 4294967296\n",
        ];
        for text in unreadable {
            assert_eq!(readable(text), None, "{text:?}");
        }
    }

    #[test]
    fn places() {
        let places: [(&[u8], usize); 21] = [
            (b"", 1),
            (b" ", 1),
            (b"\n", 1),
            (b"x", 1),
            (b"-1", 1),
            (b"4", 2),
            (b"4 ", 3),
            (b"4\n", 2),
            (b"4  2\n", 3),
            (b"00", 2),
            (b"4 02\n", 4),
            (b"4 2", 4),
            (b"4 2 \n", 5),
            (b"4 2\r\n", 4),
            (b"4 2\n\n", 5),
            (b"4 2\n4 2\n", 5),
            (b"4294967296 2\n", 10),
            (b"42949672950 2\n", 11),
            (b"9999999999\n", 10),
            (b"1 2 3 4 5 6 7 8 9 10 11 12 13 14 15 16 17 18\n", 42),
            (b"2 5 9 9 9 9 9 1 1 1 1 1 1 1 1 1 1 1\n", 34),
        ];
        for (text, place) in places {
            assert_eq!(place_of_refusal(text), place, "{text:?}");
            assert_eq!(read(text), Err(Refusal::at(10, place)));
        }
    }

    /// Seventeen numbers of ten digits, sixteen spaces and a newline.
    #[test]
    fn the_longest_line() {
        let line = (vec!["4294967295"; 17].join(" ") + "\n").into_bytes();
        assert_eq!(line.len(), 187);
        assert_eq!(read(&line), Ok(vec![u32::MAX; 17]));
        for byte in b" \n0" {
            let longer = [&line[..], &[*byte]].concat();
            assert_eq!(read(&longer), Err(Refusal::at(10, 188)));
        }
        let spaced = [&line[..186], b" "].concat();
        assert_eq!(read(&spaced), Err(Refusal::at(10, 187)));
        assert_eq!(read(&line[..186]), Err(Refusal::at(10, 187)));
    }

    /// What is extent, weight and thickness, and that "refusal 3 means neither 2*d nor 3*d after d".
    #[test]
    fn jobs_of_lines() {
        let lines: [(&[u8], [&[u32]; 3]); 5] = [
            (b"2 2 1 2 3 4 5 6\n", [&[1, 2], &[3, 4], &[5, 6]]),
            (b"2 2 1 2 3 4\n", [&[1, 2], &[3, 4], &[]]),
            (b"2 2 1 2 3 4 5\n", [&[1, 2], &[3, 4], &[5]]),
            (b"2 2 1 2 3\n", [&[1, 2], &[3], &[]]),
            (b"2 4294967295 1 2\n", [&[1, 2], &[], &[]]),
        ];
        for (line, lists) in lines {
            let job = job(line).unwrap();
            assert_eq!([job.extents, job.weights, job.least], lists);
        }
        for d in 2..=5 {
            for after in 0..=15 {
                let line = format!("1 {d}{}\n", " 1".repeat(after));
                let planned = job(line.as_bytes()).unwrap().plan();
                let right = after == 2 * d || after == 3 * d;
                let expected = if right { Ok(0) } else { Err(LENGTHS) };
                assert_eq!(planned.map(|plan| plan.cost), expected, "{line}");
            }
        }
    }

    #[test]
    fn five_endings_are_enough() {
        let endings = texts(b"0 \n", 4);
        for text in texts(b"01 \nx", 5) {
            let some = endings
                .iter()
                .any(|ending| readable(&[&text[..], ending].concat()).is_some());
            assert_eq!(begins_a_readable_line(&text), some, "{text:?}");
        }
    }

    #[test]
    fn once_lost_always_lost() {
        for text in texts(b"01 \nx", 5) {
            for length in 0..text.len() {
                if begins_a_readable_line(&text) {
                    assert!(begins_a_readable_line(&text[..length]));
                }
            }
        }
    }
}
