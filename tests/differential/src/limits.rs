//! Texts at each limit of document 01, one before it and one past it.

use crate::random::Random;
use crate::schedules::{fill, Writer};
use model::casetext::{MOST_BYTES, MOST_DO_LINES};

/// The texts that every run starts with.
pub fn texts() -> Vec<Vec<u8>> {
    let mut texts = listing_and_openings();
    texts.extend(lengths());
    texts.extend(line_counts());
    texts.extend(numbers());
    texts
}

/// A text of so many claimants, this ceiling and these do lines.
fn text(claimants: &str, ceiling: &str, lines: &str) -> Vec<u8> {
    format!("claimants={claimants}\nceiling={ceiling}\n{lines}").into_bytes()
}

fn listing_and_openings() -> Vec<Vec<u8>> {
    let steps = |count| "do=step 1\n".repeat(count);
    let listing = format!("do=ask 1 7\n{}do=leave 1\n{}", steps(8), steps(2));
    let mut texts = vec![text("1", "1", &listing), Vec::new(), b"\n".to_vec()];
    for claimants in [
        "0", "1", "2", "63", "64", "65", "66", "255", "256", "257", "65536", "65537",
    ] {
        for ceiling in ["0", "1", "2", "3", "4294967295"] {
            texts.push(text(claimants, ceiling, ""));
            texts.push(text(
                claimants,
                ceiling,
                "do=ask 1 7\ndo=step 1\ndo=ask 64 7\ndo=step 64\n",
            ));
            texts.push(text(claimants, ceiling, "do=ask 1 7\nx\n"));
        }
    }
    for claimants in [
        "4294967232",
        "4294967294",
        "4294967295",
        "4294967296",
        "4294967297",
    ] {
        texts.push(text(claimants, "1", "do=step 1\n"));
        texts.push(text("1", claimants, "do=ask 1 7\n"));
    }
    texts
}

/// Good and bad texts of 32,767 to 32,770 bytes.
fn lengths() -> Vec<Vec<u8>> {
    let mut texts = Vec::new();
    for length in MOST_BYTES - 1..=MOST_BYTES + 2 {
        texts.push(good_of_length(length));
        texts.push(vec![b'x'; length]);
        texts.push(vec![b'\n'; length]);
        let mut bad_at_the_end = good_of_length(length);
        bad_at_the_end[length - 1] = b'x';
        texts.push(bad_at_the_end);
        let mut bad_at_the_top = good_of_length(length);
        bad_at_the_top[0] = b'x';
        texts.push(bad_at_the_top);
        texts.push(
            [
                &b"claimants=1\nceiling="[..],
                &vec![b'1'; length - 21],
                b"\n",
            ]
            .concat(),
        );
    }
    texts.push(vec![b'x'; 2 * MOST_BYTES]);
    texts.push(vec![0; 65_536 + 100]);
    texts
}

/// A text that keeps the layout and has exactly so many bytes.
fn good_of_length(length: usize) -> Vec<u8> {
    let mut good = text("64", "4294967295", "");
    // Lines of 17 bytes, and at the end some of 10 to 16 for what is left.
    while length - good.len() >= 17 + 20 {
        good.extend_from_slice(b"do=ask 255 65535\n");
    }
    let of_bytes: [&[u8]; 6] = [
        b"do=step 1\n",
        b"do=ask 1 7\n",
        b"do=ask 1 77\n",
        b"do=ask 1 777\n",
        b"do=ask 1 7777\n",
        b"do=ask 1 65535\n",
    ];
    while good.len() < length {
        let left = length - good.len();
        let bytes = if left >= 20 { left - 10 } else { left };
        good.extend_from_slice(of_bytes[bytes.min(15) - 10]);
    }
    good
}

/// Texts of 2,047 to 2,050 do lines, and bad lines at the limit.
fn line_counts() -> Vec<Vec<u8>> {
    let mut texts = Vec::new();
    for lines in MOST_DO_LINES - 1..=MOST_DO_LINES + 2 {
        let good = text("2", "3", &"do=step 1\n".repeat(lines));
        for end in ["do=step 1", "do=step 01\n", "\n", "x\n", "do=ask 256 1\n"] {
            texts.push([&good[..], end.as_bytes()].concat());
        }
        let mut bad = good.clone();
        bad[30] = b'x';
        texts.push(bad);
        texts.push(good);
        // A table that can't be opened is judged after the text.
        texts.push(text("0", "0", &"do=step 1\n".repeat(lines)));
        texts.push(text("1", "0", &"do=step 1\n".repeat(lines)));
    }
    for (claimants, ceiling) in [(1, 1), (2, 1), (3, u32::MAX), (8, 5), (64, u32::MAX)] {
        let mut random = Random::new(7, claimants.into());
        let mut writer = Writer::new(claimants, ceiling);
        fill(&mut random, &mut writer, MOST_DO_LINES);
        texts.push([&writer.text[..], b"do=step 1\n"].concat());
        texts.push(writer.text);
    }
    texts
}

/// Each number at its range's ends and one past it, and each spelt badly.
fn numbers() -> Vec<Vec<u8>> {
    let mut texts = Vec::new();
    let spellings = [
        "0",
        "1",
        "00",
        "01",
        "-1",
        "+1",
        " 1",
        "1 ",
        "",
        "1.0",
        "0x1",
        "1\0",
        "255",
        "256",
        "257",
        "65535",
        "65536",
        "65537",
        "4294967295",
        "4294967296",
        "4294967297",
        "18446744073709551615",
        "18446744073709551616",
        "18446744073709551617",
        "99999999999999999999999999",
    ];
    for number in spellings {
        texts.push(text(number, "3", "do=ask 1 7\n"));
        texts.push(text("2", number, "do=ask 1 7\n"));
        for line in [
            "do=step @\n",
            "do=leave @\n",
            "do=ask @ 7\n",
            "do=ask 1 @\n",
            "do=ask @ @\n",
        ] {
            texts.push(text(
                "2",
                "3",
                &format!("{}do=step 1\n", line.replace('@', number)),
            ));
        }
    }
    texts
}

#[cfg(test)]
mod tests {
    use super::*;

    #[test]
    fn good_texts_have_their_length_and_are_good() {
        for length in MOST_BYTES - 1..=MOST_BYTES {
            let good = good_of_length(length);
            assert_eq!(good.len(), length);
            let mut entries = [0; MOST_DO_LINES];
            assert!(model::casetext::read(&good, &mut entries).is_ok());
        }
        assert_eq!(good_of_length(MOST_BYTES + 1).len(), MOST_BYTES + 1);
    }
}
