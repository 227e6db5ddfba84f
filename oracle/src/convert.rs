//! The converter between the editions of the pool file, written from document
//! 02 (M-111) alone.

use crate::pool_file::{self, Edition, File, MAX_FILE};
use crate::words::{Reader, told};

pub const CONVERT: u64 = 110;
pub const CONVERT_DIGEST: u64 = 111;

/// "turns a file opening with 64 back and any other forward"
fn turned(bytes: &[u8]) -> Result<Vec<u8>, u64> {
    let file = pool_file::parsed(bytes)?;
    let text = match pool_file::edition(bytes) {
        // The reader has numbered the plans from 0 already.
        Edition::First => file.write(Edition::Second),
        Edition::Second if held(&file) => file.write(Edition::First),
        Edition::Second => return Err(18),
    };
    if text.len() > MAX_FILE {
        return Err(18);
    }
    Ok(text)
}

/// "Backwards it accepts only numbers 0, 1, 2 onwards and no settings";
/// "turning back an inner m of 64 meets 18".
fn held(file: &File) -> bool {
    let numbers = file.plans.iter().map(|plan| plan.number);
    numbers.eq(0..file.plans.len() as u64)
        && file.plans.iter().all(|plan| plan.settings.is_empty())
        && file.marks.len() != 64
}

/// The converted file, or the refusal: 1, 17 or 18.
pub fn converted(bytes: &[u8]) -> Result<Vec<u8>, u64> {
    let text = turned(bytes)?;
    let back = turned(&text);
    assert!(back.as_deref() == Ok(bytes), "there and back again");
    if bytes.len() < 4096 {
        let (one, other) = (pool_file::choose(bytes), pool_file::choose(&text));
        assert_eq!(one, other, "`choose` of a file and of its conversion");
    }
    Ok(text)
}

pub fn answer(command: u64, r: &mut Reader) -> Result<Vec<u64>, String> {
    let room = r.number()?;
    let file = r.parts()?;
    // 10 is the C name's alone, and last.
    match converted(&file) {
        Err(number) => Ok(vec![number]),
        Ok(text) if text.len() as u64 > room => Ok(vec![10]),
        Ok(text) => Ok([vec![0], told(&text, command == CONVERT)].concat()),
    }
}

/// What the program prints: the converted file, or `refused N`.
pub fn printed(bytes: &[u8]) -> Vec<u8> {
    converted(bytes).unwrap_or_else(|number| format!("refused {number}\n").into_bytes())
}
