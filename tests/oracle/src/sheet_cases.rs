//! Jobs, dimensions and captions for the comparison of printed slab sheets (document 02, request k), and
//! captions and pages for the link.

use std::fmt;

use crate::cases;
use crate::random::Random;

/// A job line, and the two arguments of the program `slab_sheets`.
#[derive(Clone, Debug)]
pub struct Asked {
    pub line: Vec<u8>,
    /// A decimal number of any length, without sign or leading zero.
    pub dimension: String,
    /// Any bytes but 0, which no argument of a program has.
    pub caption: Vec<u8>,
}

impl Asked {
    fn new(line: &str, dimension: &str, caption: &[u8]) -> Asked {
        Asked {
            line: format!("{line}\n").into_bytes(),
            dimension: dimension.to_string(),
            caption: caption.to_vec(),
        }
    }

    pub fn number(&self) -> u32 {
        dimension_of(&self.dimension)
    }
}

impl fmt::Display for Asked {
    fn fmt(&self, f: &mut fmt::Formatter) -> fmt::Result {
        let [line, dimension, caption] =
            [&self.line, self.dimension.as_bytes(), &self.caption].map(beginning);
        write!(f, "line {line}, dimension {dimension}, caption {caption}")
    }
}

/// A text as it can be shown: of a long one its beginning and its length.
fn beginning(text: &[u8]) -> String {
    match text.get(..200) {
        Some(first) => format!("\"{}\".. ({} bytes)", first.escape_ascii(), text.len()),
        None => format!("\"{}\"", text.escape_ascii()),
    }
}

/// The dimension that a decimal number names: a number of more than 32 bits names none, as 0 does not.
pub fn dimension_of(number: &str) -> u32 {
    number.parse().unwrap_or(0)
}

/// A job of which both dimensions have this number of slabs, and the first one so many elements.
fn slabs(count: u32, elements: u32) -> String {
    format!("{count} 2 {elements} {count} 1 1")
}

/// The figures of request k, counts of slabs beside those that fill pages, every kind of refusal with
/// dimensions that there are and are not, dimensions of many digits, and captions of many kinds.
pub fn fixed() -> Vec<Asked> {
    let example = "4 2 10 10 1 1";
    let mut all = vec![
        Asked::new(example, "1", b"Casting 17"),
        Asked::new(example, "1", b"Casting 17, gate side\tA"),
        Asked::new("6 3 9 9 9 1 1 1", "3", b"Casting 17"),
        Asked::new("36 3 40 40 40 1 1 1 20 2 2", "2", b"Casting 17"),
        Asked::new(
            "4096 5 1000000 1000000 1000000 1000000 1000000 1 1 1 1 1",
            "5",
            b"Casting 17",
        ),
    ];
    for count in [1, 2, 49, 50, 51, 99, 100, 101, 1000, 4095] {
        all.push(Asked::new(&slabs(count, 3 * count + 1), "1", b"Casting 17"));
        all.push(Asked::new(&slabs(count, 3 * count + 1), "2", b"Casting 17"));
    }
    all.push(Asked::new(&slabs(4096, 1_000_000), "1", b"Casting 17"));
    for line in [
        example,
        "4 2 10  10 1 1",
        "4 6",
        "0 2 10 10 1 1",
        "4 2 10 10 1",
        "4 2 10 0 1 1",
        "4 2 10 10 1 1 1 0",
        "2 2 1 9 1 1",
    ] {
        for dimension in DIMENSIONS {
            all.push(Asked::new(line, dimension, b"Casting 17"));
        }
    }
    for digits in [100, 1_000, 10_000] {
        for digit in ["1", "9"] {
            all.push(Asked::new(example, &digit.repeat(digits), b"Casting 17"));
        }
    }
    let captions = fixed_captions();
    all.extend(captions.map(|caption| Asked::new(example, "2", &caption)));
    all
}

/// Dimensions that there are and are not, and numbers with 1 in their lower 32, 64 or 128 bits.
const DIMENSIONS: [&str; 10] = [
    "0",
    "1",
    "2",
    "3",
    "10",
    "4294967295",
    "4294967296",
    "4294967297",
    "18446744073709551617",
    "340282366920938463463374607431768211457",
];

/// Captions of every length up to 100, with every byte in them; of one byte, for every byte; words that
/// look like other arguments, and letters of several bytes.
fn fixed_captions() -> impl Iterator<Item = Vec<u8>> {
    let words = [
        "-",
        "--",
        "-h",
        "--help",
        "1",
        "%s %d \\n",
        "  two  blanks  ",
        "Gußstück 17, Süd",
        "38 bytes, and then a letter of two: 37ß",
        "铸件十七",
    ];
    let lengths =
        (0..=100).map(|length| (1..=255).cycle().skip(29 * length).take(length).collect());
    let bytes = (1..=255).map(|byte| vec![byte]);
    let long = [b"long ".repeat(20_000)];
    let words = words.map(|word| word.as_bytes().to_vec());
    lengths.chain(bytes).chain(long).chain(words)
}

/// Lines that arrive in two parts, and where they are parted: in a number, behind one, before the
/// newline.
pub fn in_parts() -> Vec<(Asked, usize)> {
    let asked = Asked::new("4 2 10 10 1 1", "1", b"Casting 17");
    let last = asked.line.len() - 1;
    [1, 5, last].map(|at| (asked.clone(), at)).to_vec()
}

/// A line, a dimension and a caption: mostly of a job that is planned, with pages.
pub fn any(random: &mut Random) -> Asked {
    let line = match random.between(0, 11) {
        0 => cases::damaged(random),
        1 => cases::crowded(random),
        2..=5 => {
            let count = random.between(1, 400) as u32;
            let elements = random.between(u64::from(count), 1_000_000) as u32;
            format!("{}\n", slabs(count, elements)).into_bytes()
        }
        _ => cases::job(random),
    };
    let d = line.split(|&byte| byte == b' ').nth(1);
    let d = d.and_then(|word| std::str::from_utf8(word).ok()?.parse().ok());
    let dimension = if random.once_in(8) {
        random.pick(&DIMENSIONS).to_string()
    } else {
        random
            .between(1, d.filter(|d| (1..=5).contains(d)).unwrap_or(5))
            .to_string()
    };
    let mut caption = caption(random);
    caption.retain(|&byte| byte != 0);
    Asked {
        line,
        dimension,
        caption,
    }
}

/// A caption of up to 100 bytes: letters, or any bytes, or bytes beside those that are shown, most often
/// about as long as the columns for it.
pub fn caption(random: &mut Random) -> Vec<u8> {
    let length = match random.between(0, 2) {
        0 => random.between(0, 100),
        1 => random.between(36, 40),
        _ => random.between(0, 38),
    };
    let kind = random.between(0, 2);
    let byte = |_| match kind {
        0 => random.between(32, 126) as u8,
        1 => random.draw() as u8,
        _ => *random.pick(&[0, 9, 10, 13, 31, 32, 33, 63, 125, 126, 127, 128, 255]),
    };
    (0..length).map(byte).collect()
}

/// A page of a sheet with so many slabs: one that there is, most often, or the last; else the one past it,
/// or one far beyond, also such that fifty times its number has a slab's number in the lower 16 or 32
/// bits.
pub fn page(random: &mut Random, slabs: u32) -> u32 {
    let last = (slabs.max(1) - 1) / 50;
    match random.between(0, 11) {
        0..=4 => random.between(0, u64::from(last)) as u32,
        5..=7 => last,
        8 => last + 1,
        9 => *random.pick(&[slabs / 50, last + 2, 256, 1_311, 65_536, 1 << 31, u32::MAX]),
        10 => random.draw() as u32,
        _ => {
            let wraps = random.between(1, 49);
            let low = (wraps << 32).div_ceil(50);
            (low + random.between(0, u64::from(last))) as u32
        }
    }
}

#[cfg(test)]
mod tests {
    use super::*;
    use crate::sheet::{answer, LENGTH};
    use std::collections::BTreeMap;

    /// How often each refusal, one page, or more than one comes out.
    fn outcomes(asked: impl Iterator<Item = Asked>) -> BTreeMap<String, usize> {
        let mut counts = BTreeMap::new();
        for asked in asked {
            let text = answer(&asked.line, asked.number(), &asked.caption);
            let kind = match text.strip_prefix("refused ") {
                Some(rest) => rest.split(' ').next().unwrap_or_default(),
                None if text.len() == LENGTH => "page",
                None => "pages",
            };
            *counts.entry(kind.to_string()).or_insert(0) += 1;
        }
        counts
    }

    #[test]
    fn every_outcome() {
        let kinds = ["1", "10", "13", "2", "3", "4", "5", "7", "page", "pages"];
        let fixed = outcomes(fixed().into_iter());
        assert!(fixed.keys().eq(&kinds), "{fixed:?}");
        let mut random = Random::new(23);
        let any = outcomes((0..1500).map(|_| any(&mut random)));
        assert!(any.keys().eq(&kinds), "{any:?}");
        assert!(any.values().all(|&count| count >= 5), "{any:?}");
        assert!(any["page"] >= 200 && any["pages"] >= 200, "{any:?}");
    }

    #[test]
    fn numbers_of_many_digits_name_no_dimension() {
        for number in ["0", "4294967296", "4294967297", "18446744073709551617"] {
            assert_eq!(dimension_of(number), 0);
        }
        assert_eq!(dimension_of(&"9".repeat(10_000)), 0);
        assert_eq!(dimension_of("4294967295"), u32::MAX);
        assert_eq!(dimension_of("5"), 5);
    }

    /// Every length and every byte, in captions for the link.
    #[test]
    fn every_caption() {
        let mut random = Random::new(24);
        let (mut lengths, mut bytes) = ([0; 101], [0; 256]);
        for _ in 0..20_000 {
            let caption = caption(&mut random);
            lengths[caption.len()] += 1;
            caption.iter().for_each(|&byte| bytes[byte as usize] += 1);
        }
        assert!(lengths.iter().all(|&count| count >= 20), "{lengths:?}");
        assert!(bytes.iter().all(|&count| count >= 100), "{bytes:?}");
        assert!(fixed_captions().all(|caption| !caption.contains(&0)));
    }

    /// Pages that there are, the one past the last, and others whose number times fifty has a slab's
    /// number in its lower 32 bits.
    #[test]
    fn pages_there_and_beyond() {
        let mut random = Random::new(25);
        for slabs in [1, 2, 49, 50, 51, 100, 101, 4096] {
            let (mut inside, mut next, mut far, mut wrapped) = (0, 0, 0, 0);
            for _ in 0..2_000 {
                let page = page(&mut random, slabs);
                let first = u64::from(page) * 50;
                match first.checked_sub(u64::from(slabs)) {
                    None => inside += 1,
                    Some(0..50) => next += 1,
                    Some(_) if (first as u32) < slabs => wrapped += 1,
                    Some(_) => far += 1,
                }
            }
            let counts = [inside, next, far, wrapped];
            assert!(
                inside >= 1_000 && counts.iter().all(|&count| count >= 10),
                "{slabs}: {counts:?}"
            );
        }
    }
}
