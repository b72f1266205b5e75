//! Parts of a report that more than one comparison uses.

use crate::c_numbers::Names;
use crate::forms::{Both, Length, FRONT};
use std::fmt;

/// One line of two answers side by side, with a star where they differ.
pub fn line(name: &str, ours: &str, other: &str) -> String {
    let mark = if ours == other { ' ' } else { '*' };
    format!("{mark} {name:<16} {ours:<24} {other}\n")
}

pub fn hex(bytes: &[u8]) -> String {
    bytes.iter().map(|byte| format!(" {byte:02X}")).collect()
}

/// A line for each of the first bytes or numbers, as many as `shown`, and for others that
/// differ.
pub fn number_lines<T: fmt::LowerHex + PartialEq>(
    ours: &[T],
    expected: &[T],
    shown: usize,
    name: fn(usize) -> String,
) -> String {
    let mut text = String::new();
    for (index, (ours, expected)) in ours.iter().zip(expected).enumerate() {
        if index < shown || ours != expected {
            let [ours, expected] = [ours, expected].map(|number| format!("{number:#x}"));
            text += &line(&name(index), &ours, &expected);
        }
    }
    text
}

/// As above, for what is lent of longer lists and for what is around it.
pub fn lent_lines<T: fmt::LowerHex + PartialEq>(
    ours: &[T],
    expected: &[T],
    shown: usize,
    name: fn(usize) -> String,
) -> String {
    let (front, ours) = ours.split_at(FRONT);
    let (due, expected) = expected.split_at(FRONT);
    let front = number_lines(front, due, 0, |at| format!("in front, {}", FRONT - at));
    front + &number_lines(ours, expected, shown, name)
}

/// Both lists of a form.
pub fn form_lines(ours: Both, expected: Both, shown: Length, names: Names) -> String {
    let [byte, number] = names;
    let bytes = number_lines(ours.0, expected.0, shown.bytes, byte);
    bytes + &number_lines(ours.1, expected.1, shown.numbers, number)
}

/// Both lists of a form as they are lent, with what is around them.
pub fn room_lines(ours: Both, expected: Both, shown: Length, names: Names) -> String {
    let [byte, number] = names;
    let bytes = lent_lines(ours.0, expected.0, shown.bytes, byte);
    bytes + &lent_lines(ours.1, expected.1, shown.numbers, number)
}

/// Both lists in one line, with a comma in front of these bytes and numbers.
pub fn list_line(name: &str, (bytes, numbers): Both, commas: [&[usize]; 2]) -> String {
    let parts = |index: usize, before: &[usize]| if before.contains(&index) { "," } else { "" };
    let mut text = format!("{name}, {} bytes:", bytes.len());
    for (index, byte) in bytes.iter().enumerate() {
        text += &format!("{} {byte:02X}", parts(index, commas[0]));
    }
    text += &format!("; {} numbers:", numbers.len());
    for (index, number) in numbers.iter().enumerate() {
        text += &format!("{} {number:X}", parts(index, commas[1]));
    }
    text + "\n"
}
