//! The rules of the program's text, each broken alone.

use second::shelf_text;

const RIGHT: &str = "2 2 1\n1 5\n4 2\n1 1 7\n";
const ANSWER: &str = "order 0 1\ncount 0 2 2\nlist 1 0\n";

/// What the program prints for this text, as a string.
fn printed(input: &str) -> String {
    String::from_utf8(shelf_text(input.as_bytes())).unwrap()
}

/// Asks that the program refuses the text with this number.
fn refuses(input: &str, code: u32) {
    assert_eq!(printed(input), format!("refused {code}\n"), "{input:?}");
}

/// A text with one dimension, one point and one face.
fn single(coordinate: &str, component: &str, offset: &str) -> String {
    format!("1 1 1\n{coordinate}\n{component} {offset}\n")
}

/// A text of `n` zero points and `h` zero faces in `k` dimensions.
fn zeros(k: usize, n: usize, h: usize) -> String {
    let point = vec!["0"; k].join(" ") + "\n";
    let face = vec!["0"; k + 1].join(" ") + "\n";
    format!("{k} {n} {h}\n{}{}", point.repeat(n), face.repeat(h))
}

/// The text that the broken ones below start from is right. Both slots have the
/// box x 1..4, y 2..5: the far corner is above the face, the near one below.
#[test]
fn right_text() {
    assert_eq!(printed(RIGHT), ANSWER);
}

/// The bare words for the empty shelf.
#[test]
fn bare_words() {
    let empty = "order\ncount 0 0 0\nlist\n";
    assert_eq!(printed("1 0 0\n"), empty);
    assert_eq!(printed("4 0 1\n1 2 3 4 5\n"), empty);
}

/// Every face of a text is closed: a point exactly on one is inside.
#[test]
fn faces_are_closed() {
    let on = "order 0\ncount 1 0 0\nlist 0\n";
    assert_eq!(printed(&single("5", "1", "5")), on);
    assert_eq!(printed(&single("5", "-1", "-5")), on);
    assert_eq!(printed(&single("0", "0", "0")), on);
}

/// Lines: the last newline, too few, too many, empty ones, something after.
#[test]
fn lines_broken() {
    refuses("", 10);
    refuses("\n", 10);
    refuses(&RIGHT[..RIGHT.len() - 1], 10);
    refuses(&format!("{RIGHT}\n"), 10);
    refuses(&format!("{RIGHT} "), 10);
    refuses(&format!("{RIGHT}0\n"), 10);
    refuses(&format!("{RIGHT}\0"), 10);
    refuses(&format!("\n{RIGHT}"), 10);
    refuses("2 2 1\n1 5\n1 1 7\n", 10);
    refuses("2 2 1\n1 5\n4 2\n", 10);
    refuses("2 2 1\n1 5\n\n4 2\n1 1 7\n", 10);
    refuses(&RIGHT.replace('\n', "\r\n"), 10);
    refuses(&RIGHT.replace('\n', "\r"), 10);
}

/// Items on a line: one too few, one too many, on each sort of line.
#[test]
fn items_broken() {
    refuses("2 2\n1 5\n4 2\n1 1 7\n", 10);
    refuses("2 2 1 0\n1 5\n4 2\n1 1 7\n", 10);
    refuses("2 2 1\n1\n4 2\n1 1 7\n", 10);
    refuses("2 2 1\n1 5 0\n4 2\n1 1 7\n", 10);
    refuses("2 2 1\n1 5\n4 2\n1 1\n", 10);
    refuses("2 2 1\n1 5\n4 2\n1 1 7 0\n", 10);
    refuses("2 2 1\n1 5 4\n2\n1 1 7\n", 10);
}

/// Spaces: before, after, two, a tab, none.
#[test]
fn spaces_broken() {
    refuses(&format!(" {RIGHT}"), 10);
    refuses("2 2 1 \n1 5\n4 2\n1 1 7\n", 10);
    refuses("2 2 1\n1  5\n4 2\n1 1 7\n", 10);
    refuses("2 2 1\n1\t5\n4 2\n1 1 7\n", 10);
    refuses("2 2 1\n1 5\n 4 2\n1 1 7\n", 10);
    refuses("2 2 1\n1 5\n4 2\n1 1 7 \n", 10);
    refuses("2 2 1\n1 5\n4 2\n1,1 7\n", 10);
}

/// The writing of a number, in each of the places it can stand.
#[test]
fn numbers_broken() {
    let words = [
        "+1",
        "01",
        "00",
        "-0",
        "-01",
        "-",
        "--1",
        "1-",
        "a",
        "1a",
        "0x1",
        "1.0",
        "1e1",
        "'1'",
        "\u{661}",
        "12345678901",
        "-12345678901",
        "00000000001",
    ];
    for word in words {
        refuses(&single(word, "1", "1"), 10);
        refuses(&single("1", word, "1"), 10);
        refuses(&single("1", "1", word), 10);
        refuses(&RIGHT.replacen('2', word, 1), 10);
    }
    for word in ["0", "-1", "1", "10", "-10"] {
        assert!(printed(&single(word, word, word)).starts_with("order 0\n"));
    }
}

/// Bytes that are no text at all.
#[test]
fn bytes_broken() {
    assert_eq!(shelf_text(&[0xff, b'\n']), b"refused 10\n");
    assert_eq!(shelf_text(b"1 1 0\n\xb2\n"), b"refused 10\n");
}

/// k, n and h on both sides of the limits of the text and of the library.
#[test]
fn first_line_limits() {
    for (k, code) in [(0, 10), (5, 1), (9, 1), (10, 10)] {
        refuses(&zeros(k, 1, 1), code);
    }
    assert!(printed(&zeros(1, 512, 0)).starts_with("order 0 1 2 "));
    assert!(printed(&zeros(4, 512, 32)).ends_with(" 511\n"));
    refuses(&zeros(1, 513, 0), 10);
    assert_eq!(printed(&zeros(1, 0, 32)), "order\ncount 0 0 0\nlist\n");
    for (h, code) in [(33, 6), (64, 6), (65, 10)] {
        refuses(&zeros(1, 0, h), code);
    }
    refuses("-1 0 0\n", 10);
    refuses("1 -1 0\n", 10);
    refuses("1 0 -1\n", 10);
}

/// Coordinates, components and offsets beyond the library's ranges and beyond
/// 32 signed bits. Ten digits of an offset are never number 10.
#[test]
fn number_limits() {
    for word in ["-2147483649", "2147483648", "9999999999", "-9999999999"] {
        refuses(&single(word, "1", "1"), 10);
        refuses(&single("1", word, "1"), 10);
    }
    for word in ["-2147483648", "2147483647"] {
        refuses(&single(word, "1", "1"), 5);
        refuses(&single("1", word, "1"), 8);
    }
    for word in ["8589934593", "-8589934593", "9999999999", "-9999999999"] {
        refuses(&single("1", "1", word), 8);
    }
    for word in ["8589934592", "-8589934592"] {
        assert!(printed(&single("1", "1", word)).starts_with("order 0\n"));
    }
    refuses(&single("-32769", "1", "1"), 5);
    refuses(&single("1", "-32768", "1"), 8);
}

/// The text is tested before all others, and the lower number comes first.
#[test]
fn refusal_order() {
    refuses("5 1 0\n1 1 1 1 1", 10);
    refuses(&single("32768", "32768", "1"), 5);
    let faces = "32768 0\n".repeat(33);
    refuses(&format!("1 1 33\n0\n{faces}"), 6);
    refuses(&format!("1 1 33\n32768\n{faces}"), 5);
}

/// A text of exactly this length that is right but for k being 9.
fn of_length(length: usize) -> String {
    let mut left = length - "9 512 0\n".len() - 9 * 512 * 2;
    let mut text = String::from("9 512 0\n");
    for item in 1..=9 * 512 {
        let more = left.min(9);
        left -= more;
        text += &"1".repeat(1 + more);
        text.push(if item % 9 == 0 { '\n' } else { ' ' });
    }
    text
}

/// The longest text passes the rules of the text, one byte more does not.
#[test]
fn longest_text() {
    for (length, code) in [(32_767, 1), (32_768, 1), (32_769, 10)] {
        let text = of_length(length);
        assert_eq!(text.len(), length);
        refuses(&text, code);
    }
}
