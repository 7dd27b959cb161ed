//! The program's text: parse, run, print.

use crate::calls::{arrange, list, Listing};
use crate::live::LIVE;
use crate::region::CLOSED;

/// The number of a text that breaks a rule of the text.
pub const NOT_THE_TEXT: u32 = 10;

/// The longest text, in bytes.
pub const LONGEST_TEXT: usize = 32_768;

/// What a right text says.
#[derive(Clone, Debug, PartialEq, Eq)]
pub struct Text {
    pub k: usize,
    pub n: usize,
    pub h: usize,
    pub points: Vec<i32>,
    pub normals: Vec<i32>,
    pub offsets: Vec<i64>,
}

/// The whole program `shelf`: from the input bytes to the output bytes.
pub fn shelf_text(input: &[u8]) -> Vec<u8> {
    let answer = match parse(input) {
        None => Err(NOT_THE_TEXT),
        Some(text) => run(&text),
    };
    match answer {
        Err(code) => format!("refused {code}\n").into_bytes(),
        Ok((order, listing, list)) => printed(&order, &listing, &list).into_bytes(),
    }
}

/// Arranges and lists: the order, the numbers of the answer and the list, or the
/// number of the refusal. The program passes all points as live and all faces
/// as closed.
fn run(text: &Text) -> Result<(Vec<u32>, Listing, Vec<u32>), u32> {
    let (k, n, h) = (text.k, text.n, text.h);
    let mut order = vec![0; n];
    let mut buffer = vec![0; n];
    let live = vec![LIVE; n];
    let arranging = arrange(k, n, &text.points, &live, &mut order);
    if arranging.code != 0 {
        return Err(arranging.code);
    }
    let marks = vec![CLOSED; h];
    let (points, normals, offsets) = (&text.points, &text.normals, &text.offsets);
    let listing = list(
        k,
        n,
        h,
        points,
        &live,
        &order,
        normals,
        offsets,
        &marks,
        &mut buffer,
    );
    match listing.code {
        0 => Ok((order, listing, buffer)),
        code => Err(code),
    }
}

/// The three printed lines.
fn printed(order: &[u32], listing: &Listing, list: &[u32]) -> String {
    let count = [listing.inside, listing.outside, listing.visits];
    line("order", order) + &line("count", &count) + &line("list", list)
}

/// One printed line: the word, then each number after one space.
fn line(word: &str, numbers: &[u32]) -> String {
    let items: String = numbers.iter().map(|number| format!(" {number}")).collect();
    format!("{word}{items}\n")
}

/// What the text says, or nothing when it breaks a rule.
pub fn parse(input: &[u8]) -> Option<Text> {
    if input.len() > LONGEST_TEXT {
        return None;
    }
    let lines: Vec<&[u8]> = input.strip_suffix(b"\n")?.split(|&b| b == b'\n').collect();
    let first = numbers(lines[0], 3)?;
    let k = between(first[0], 1, 9)?;
    let n = between(first[1], 0, 512)?;
    let h = between(first[2], 0, 64)?;
    if lines.len() != 1 + n + h {
        return None;
    }
    let mut text = Text {
        k,
        n,
        h,
        points: Vec::new(),
        normals: Vec::new(),
        offsets: Vec::new(),
    };
    for line in &lines[1..1 + n] {
        text.points.extend(signed_32(&numbers(line, k)?)?);
    }
    for line in &lines[1 + n..] {
        let face = numbers(line, k + 1)?;
        text.normals.extend(signed_32(&face[..k])?);
        text.offsets.push(face[k]);
    }
    Some(text)
}

/// The numbers of a line that must hold exactly `count`, one space between.
fn numbers(line: &[u8], count: usize) -> Option<Vec<i64>> {
    let found: Vec<i64> = line
        .split(|&byte| byte == b' ')
        .map(number)
        .collect::<Option<_>>()?;
    (found.len() == count).then_some(found)
}

/// One decimal number: at most ten digits, a minus sign or none, no leading
/// zero and no "-0".
fn number(word: &[u8]) -> Option<i64> {
    let digits = word.strip_prefix(b"-").unwrap_or(word);
    let all_digits = digits.iter().all(u8::is_ascii_digit);
    if digits.is_empty() || digits.len() > 10 || !all_digits {
        return None;
    }
    if digits[0] == b'0' && word != b"0" {
        return None;
    }
    let size = digits
        .iter()
        .fold(0i64, |size, digit| size * 10 + i64::from(digit - b'0'));
    Some(if word[0] == b'-' { -size } else { size })
}

/// The number as a size, when it is from `least` to `greatest`.
fn between(number: i64, least: i64, greatest: i64) -> Option<usize> {
    let within = least <= number && number <= greatest;
    within.then_some(number as usize)
}

/// The numbers in 32 signed bits, when all of them fit.
fn signed_32(numbers: &[i64]) -> Option<Vec<i32>> {
    let fitted = numbers.iter().map(|&number| i32::try_from(number).ok());
    fitted.collect()
}
