//! Telling a list from its text by content. A text has no control bytes but those that part its lines
//! and words. A list has some: the reader takes none that is so long that its first byte is not 0.

use crate::list::HANDED;
use crate::text;
use crate::LONGEST_INPUT;

fn is_list(bytes: &[u8]) -> bool {
    let in_no_text = |byte: &u8| (*byte < b' ' && !b"\t\n\r".contains(byte)) || *byte == 0x7f;
    bytes.is_empty() || bytes.iter().any(in_no_text)
}

/// Text may hold any letters in its comments; what is not UTF-8 there does not matter.
pub fn as_text(bytes: &[u8]) -> Result<String, String> {
    if bytes.len() as u64 >= LONGEST_INPUT {
        return Err("the text is longer than any that this program takes".to_string());
    }
    let text = String::from_utf8_lossy(bytes);
    Ok(text.trim_start_matches('\u{feff}').to_string())
}

/// A list as it is, whole or damaged, for the proved program to judge; a text as the list it means.
pub fn list_of(bytes: &[u8]) -> Result<Vec<u8>, String> {
    if is_list(bytes) {
        return Ok(bytes[..bytes.len().min(HANDED)].to_vec());
    }
    text::to_list(&as_text(bytes)?)
}
