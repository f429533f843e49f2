//! The assembler: one line of text to one instruction word.
//!
//! `daddu $1, $2, $3`, `ld $1, 8($2)`, `cincbase $c1, $c2, $3`,
//! `clbu $2, $3, 5($c1)` (register, index, byte offset, capability),
//! `beq $1, $2, label`. A branch may name a label or give the signed word count
//! that stands in the word. `$zero` is `$0`. Names are read in either case.

pub mod encode;

use encode::{Field, Kind};
use std::collections::BTreeMap;

/// Labels and the place in the flash where each stands.
pub type Labels = BTreeMap<String, u64>;

/// A number: decimal or 0x hexadecimal, perhaps negative, underscores ignored.
pub fn number(text: &str) -> Result<i128, String> {
    let plain = text.trim().replace('_', "").to_ascii_lowercase();
    let (negative, digits) = match plain.strip_prefix('-') {
        Some(rest) => (true, rest),
        None => (false, plain.as_str()),
    };
    let (radix, digits) = match digits.strip_prefix("0x") {
        Some(rest) => (16, rest),
        None => (10, digits),
    };
    // A sign after the prefix would be taken by the parser below.
    let value = match digits.chars().next() {
        Some(first) if first.is_digit(radix) => u64::from_str_radix(digits, radix).ok(),
        _ => None,
    };
    match value {
        Some(value) if negative => Ok(-i128::from(value)),
        Some(value) => Ok(i128::from(value)),
        None => Err(format!("'{}' is not a number of 64 bits", text.trim())),
    }
}

/// A number taken as 64 bits: -2^63 to 2^64 - 1.
pub fn number_64(text: &str) -> Result<u64, String> {
    let value = number(text)?;
    if value < i128::from(i64::MIN) {
        return Err(format!("'{}' is not a number of 64 bits", text.trim()));
    }
    Ok(value as u64)
}

/// The number of a general register, `$0` to `$31` or `$zero`.
pub fn general_register(text: &str) -> Result<i64, String> {
    let text = text.trim().to_ascii_lowercase();
    if text == "$zero" {
        return Ok(0);
    }
    register(&text, "$").ok_or(format!("'{text}' is not a general register $0 to $31"))
}

/// The number of a capability register, `$c0` to `$c31`.
pub fn capability_register(text: &str) -> Result<i64, String> {
    let text = text.trim().to_ascii_lowercase();
    register(&text, "$c").ok_or(format!("'{text}' is not a capability register $c0 to $c31"))
}

/// The number after a prefix, if it is plain digits from 0 to 31.
fn register(text: &str, prefix: &str) -> Option<i64> {
    let digits = text.strip_prefix(prefix)?;
    let plain = !digits.is_empty() && digits.bytes().all(|byte| byte.is_ascii_digit());
    match digits.parse::<i64>() {
        Ok(value) if plain && value < 32 => Some(value),
        _ => None,
    }
}

/// The word of one instruction that stands at `place` in the flash.
pub fn assemble(text: &str, place: u64, labels: &Labels) -> Result<u32, String> {
    let (name, rest) = match text.trim().split_once(char::is_whitespace) {
        Some((name, rest)) => (name, rest.trim()),
        None => (text.trim(), ""),
    };
    let name = name.to_ascii_lowercase();
    let (pieces, memory) = operand_pieces(rest)?;
    let format = encode::find(&name, pieces.len())?;
    if format.memory != memory {
        let form = if format.memory { "end in offset(base)" } else { "have no brackets" };
        return Err(format!("the operands of {name} {form}"));
    }
    let mut word = format.fixed;
    for (field, piece) in format.fields.iter().zip(&pieces) {
        let number = operand(field, piece, place, labels)?;
        word |= encode::put(field, number)?;
    }
    Ok(word)
}

/// The operands, with `a(b)` at the end taken as two; true if there was one.
fn operand_pieces(text: &str) -> Result<(Vec<String>, bool), String> {
    if text.is_empty() {
        return Ok((Vec::new(), false));
    }
    let mut pieces: Vec<String> = text.split(',').map(|piece| piece.trim().to_string()).collect();
    let last = pieces.pop().unwrap_or_default();
    let memory = last.contains('(');
    if memory {
        let inside = last.strip_suffix(')').and_then(|open| open.split_once('('));
        let (offset, base) = inside.ok_or(format!("'{last}' is not offset(base)"))?;
        pieces.push(offset.trim().to_string());
        pieces.push(base.trim().to_string());
    } else {
        pieces.push(last);
    }
    Ok((pieces, memory))
}

fn operand(field: &Field, text: &str, place: u64, labels: &Labels) -> Result<i64, String> {
    match field.kind {
        Kind::General => general_register(text),
        Kind::Capability => capability_register(text),
        Kind::Branch if is_label(text) => branch_count(text, place, labels),
        _ => i64::try_from(number(text)?).map_err(|_| format!("'{text}' is out of range")),
    }
}

/// A label starts with a letter or an underscore.
pub fn is_label(text: &str) -> bool {
    let first = text.chars().next().unwrap_or(' ');
    let whole = text.chars().all(|letter| letter.is_ascii_alphanumeric() || letter == '_');
    whole && (first.is_ascii_alphabetic() || first == '_')
}

/// The words from the place after the branch to the label.
fn branch_count(label: &str, place: u64, labels: &Labels) -> Result<i64, String> {
    let target = labels.get(label).ok_or(format!("no label is called '{label}'"))?;
    let distance = *target as i64 - (place as i64 + 4);
    if distance % 4 != 0 {
        return Err(format!("label '{label}' is not a whole number of words away"));
    }
    Ok(distance / 4)
}
