//! Every kind of edit that makes a good text a bad one, or nearly.

use crate::random::Random;

/// An edit of a text that has at least one byte.
pub type Damage = fn(&mut Random, &mut Vec<u8>);

/// The kinds of damage, each with what it does.
pub const KINDS: [(&str, Damage); 26] = [
    ("a byte changed", |random, text| byte_changed(random, text)),
    ("a byte dropped", byte_dropped),
    ("a byte doubled", byte_doubled),
    ("a byte added", byte_added),
    ("a line cut", line_cut),
    ("a line dropped", line_dropped),
    ("a line doubled", line_doubled),
    ("two lines swapped", lines_swapped),
    ("a line emptied", line_emptied),
    ("an empty line added", |random, text| {
        text.insert(some_line(random, text).0, b'\n')
    }),
    ("a zero in front", |random, text| {
        in_front_of_a_number(random, text, b"0")
    }),
    ("a sign in front", sign_in_front),
    ("a space added", space_added),
    ("a CR LF", |random, text| {
        text.insert(some_line(random, text).1, b'\r')
    }),
    ("all lines CR LF", all_lines_cr_lf),
    ("the last LF dropped", |_, text| {
        text.truncate(text.len() - 1)
    }),
    ("an LF added", |_, text| text.push(b'\n')),
    ("the text cut", |random, text| {
        text.truncate(random.below(text.len()))
    }),
    ("bytes after the end", bytes_after_the_end),
    ("a letter's case", |random, text| letters_case(random, text)),
    ("one past the range", |random, text| {
        replace_number(random, text, |most, _| (most + 1).to_string())
    }),
    ("far past the range", |random, text| {
        replace_number(random, text, |_, random| far(random))
    }),
    ("the range's end", |random, text| {
        replace_number(random, text, |most, _| most.to_string())
    }),
    ("a number dropped", |random, text| {
        replace_number(random, text, |_, _| String::new())
    }),
    ("a number added", number_added),
    ("another word", another_word),
];

/// Bytes that are likely to be mistaken for something.
const ODD_BYTES: &[u8] = b"\0\t\n\r +-0149:/=adeilmnpst_\x7f\x80\xb0\xff";

/// Lines that are not what they should be, at least not there.
const ODD_LINES: [&[u8]; 9] = [
    b"do=lost 1",
    b"do=",
    b"do=step",
    b"do=ask 1",
    b"do=leave",
    b"claimants=2",
    b"ceiling=2",
    b"rules=2",
    b"end=1",
];

/// Damages a text in the way of the given kind.
pub fn damage(random: &mut Random, kind: usize, text: &mut Vec<u8>) {
    if text.is_empty() {
        text.push(b'\n');
    }
    KINDS[kind].1(random, text);
}

fn byte_changed(random: &mut Random, text: &mut [u8]) {
    let at = random.below(text.len());
    text[at] = some_byte(random);
}

fn byte_dropped(random: &mut Random, text: &mut Vec<u8>) {
    text.remove(random.below(text.len()));
}

fn byte_doubled(random: &mut Random, text: &mut Vec<u8>) {
    let at = random.below(text.len());
    text.insert(at, text[at]);
}

fn byte_added(random: &mut Random, text: &mut Vec<u8>) {
    let at = random.below(text.len());
    text.insert(at, some_byte(random));
}

fn line_cut(random: &mut Random, text: &mut Vec<u8>) {
    let line = some_line(random, text);
    text.drain(random.between(line.0, line.1)..line.1);
}

fn line_dropped(random: &mut Random, text: &mut Vec<u8>) {
    let line = some_line(random, text);
    text.drain(line.0..end_of(text, line));
}

fn line_doubled(random: &mut Random, text: &mut Vec<u8>) {
    let line = some_line(random, text);
    let copy = text[line.0..end_of(text, line)].to_vec();
    text.splice(line.0..line.0, copy);
}

fn lines_swapped(random: &mut Random, text: &mut Vec<u8>) {
    let lines = lines(text);
    let at = random.below(lines.len());
    if let Some(&next) = lines.get(at + 1) {
        let first = text[lines[at].0..end_of(text, lines[at])].to_vec();
        let second_end = end_of(text, next);
        text.splice(second_end..second_end, first);
        text.drain(lines[at].0..lines[at].1 + 1);
    }
}

fn line_emptied(random: &mut Random, text: &mut Vec<u8>) {
    let line = some_line(random, text);
    text.drain(line.0..line.1);
}

fn sign_in_front(random: &mut Random, text: &mut Vec<u8>) {
    let sign: &[u8] = random.pick(&[b"+", b"-"]);
    in_front_of_a_number(random, text, sign);
}

/// Before or after a space, a sign of equality or a line's end.
fn space_added(random: &mut Random, text: &mut Vec<u8>) {
    let marks: Vec<usize> = (0..=text.len())
        .filter(|&at| at == text.len() || b" =\n".contains(&text[at]))
        .collect();
    let at = random.pick(&marks) + random.below(2);
    text.insert(at.min(text.len()), b' ');
}

fn all_lines_cr_lf(_: &mut Random, text: &mut Vec<u8>) {
    let lines: Vec<&[u8]> = text.split(|&byte| byte == b'\n').collect();
    *text = lines.join(&b"\r\n"[..]);
}

fn bytes_after_the_end(random: &mut Random, text: &mut Vec<u8>) {
    for _ in 0..random.between(1, 12) {
        let byte = some_byte(random);
        text.push(byte);
    }
}

fn letters_case(random: &mut Random, text: &mut [u8]) {
    let letters: Vec<usize> = (0..text.len())
        .filter(|&at| text[at].is_ascii_alphabetic())
        .collect();
    if !letters.is_empty() {
        text[random.pick(&letters)] ^= 0x20;
    }
}

fn number_added(random: &mut Random, text: &mut Vec<u8>) {
    let end = some_line(random, text).1;
    let number: &[u8] = random.pick(&[b" 0", b" 1", b" 7", b" 65535"]);
    text.splice(end..end, number.iter().copied());
}

fn another_word(random: &mut Random, text: &mut Vec<u8>) {
    let line = some_line(random, text);
    text.splice(line.0..line.1, random.pick(&ODD_LINES).iter().copied());
}

fn some_byte(random: &mut Random) -> u8 {
    if random.once_in(3) {
        random.next() as u8
    } else {
        random.pick(ODD_BYTES)
    }
}

/// Where each line starts and where its bytes end, before the LF if it has one.
fn lines(text: &[u8]) -> Vec<(usize, usize)> {
    let mut lines = Vec::new();
    let mut start = 0;
    for (at, &byte) in text.iter().enumerate() {
        if byte == b'\n' {
            lines.push((start, at));
            start = at + 1;
        }
    }
    if start < text.len() {
        lines.push((start, text.len()));
    }
    lines
}

/// Some line of a text, as [`lines`] has it.
fn some_line(random: &mut Random, text: &[u8]) -> (usize, usize) {
    random.pick(&lines(text))
}

/// Where a line ends, its LF with it.
fn end_of(text: &[u8], line: (usize, usize)) -> usize {
    (line.1 + 1).min(text.len())
}

/// Where the runs of digits are.
fn numbers(text: &[u8]) -> Vec<(usize, usize)> {
    let mut numbers: Vec<(usize, usize)> = Vec::new();
    for (at, byte) in text.iter().enumerate() {
        match numbers.last_mut() {
            _ if !byte.is_ascii_digit() => {}
            Some(last) if last.1 == at => last.1 = at + 1,
            _ => numbers.push((at, at + 1)),
        }
    }
    numbers
}

fn in_front_of_a_number(random: &mut Random, text: &mut Vec<u8>, what: &[u8]) {
    let numbers = numbers(text);
    if !numbers.is_empty() {
        let at = random.pick(&numbers).0;
        text.splice(at..at, what.iter().copied());
    }
}

/// Puts another number in the place of one; `other` is given the most that the
/// layout allows there.
fn replace_number(
    random: &mut Random,
    text: &mut Vec<u8>,
    other: impl Fn(u64, &mut Random) -> String,
) {
    let numbers = numbers(text);
    if numbers.is_empty() {
        return;
    }
    // The numbers of the first two lines as often as all the others together.
    let (start, end) = if random.once_in(2) {
        numbers[random.below(numbers.len().min(2))]
    } else {
        random.pick(&numbers)
    };
    let line = text[..start]
        .iter()
        .rposition(|&byte| byte == b'\n')
        .map_or(0, |at| at + 1);
    let before = &text[line..start];
    let most = if before.starts_with(b"do=ask ") && before[7..].contains(&b' ') {
        65_535
    } else if before.starts_with(b"do=") {
        255
    } else {
        4_294_967_295
    };
    let number = other(most, random);
    text.splice(start..end, number.into_bytes());
}

/// A number that wraps round to a small one in some width, or is just long.
fn far(random: &mut Random) -> String {
    let small = random.below(3) as u128;
    match random.below(6) {
        0 => (256 + small).to_string(),
        1 => (65_536 + small).to_string(),
        2 => ((1u128 << 32) + small).to_string(),
        3 => ((1u128 << 64) + small).to_string(),
        4 => (1u128 << 127).to_string(),
        _ => "9".repeat(random.between(1, 40)),
    }
}
