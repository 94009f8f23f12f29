//! Numbers on the sheet: seven bits a byte, lowest group first, shortest form only.

use crate::Refusal;

const MORE: u8 = 0x80;
const LONGEST: usize = 4;

/// The numbers that the bytes spell, or the first fault (1 to 3).
pub fn words(sheet: &[u8]) -> Result<Vec<u32>, Refusal> {
    let mut words = Vec::new();
    let mut start = 0;
    while start < sheet.len() {
        let form = form_at(sheet, start)?;
        words.push(value(form));
        start += form.len();
    }
    Ok(words)
}

/// The sheet of these words, each below 2 to the 28th.
pub fn bytes(words: &[u32]) -> Vec<u8> {
    let mut sheet = Vec::with_capacity(words.len() * LONGEST);
    for &word in words {
        put(word, &mut sheet);
    }
    sheet
}

/// The bytes of the number that starts here.
fn form_at(sheet: &[u8], start: usize) -> Result<&[u8], Refusal> {
    let rest = &sheet[start..];
    let carried = rest.iter().take(LONGEST).take_while(|&&byte| byte >= MORE);
    let length = carried.count() + 1;
    if length > LONGEST {
        return Err(Refusal::new(1, start));
    }
    match rest.get(length - 1) {
        None => Err(Refusal::new(3, start)),
        Some(0) if length > 1 => Err(Refusal::new(2, start)),
        Some(_) => Ok(&rest[..length]),
    }
}

fn value(form: &[u8]) -> u32 {
    form.iter()
        .rev()
        .fold(0, |high, byte| high * 128 + u32::from(byte % MORE))
}

fn put(word: u32, sheet: &mut Vec<u8>) {
    let group = (word % 128) as u8;
    if word < 128 {
        return sheet.push(group);
    }
    sheet.push(MORE + group);
    put(word / 128, sheet);
}
