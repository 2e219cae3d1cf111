//! JSON without white space, as in the kit's crate json.

use super::itoa::Buffer;
use super::memory::AllocError;
use super::prelude::{TryVec, Vec};

/// Appends tokens of JSON to a text, with commas between values. The nesting is the caller's.
pub struct Writer {
    text: Vec<u8>,
    /// The last token ended a value, so a comma precedes the next one.
    is_after_value: bool,
}

impl Writer {
    pub fn new(text: Vec<u8>) -> Self {
        Writer { text, is_after_value: false }
    }

    pub fn into_inner(self) -> Vec<u8> {
        self.text
    }

    pub fn begin_object(&mut self) -> Result<(), AllocError> {
        self.put(b"{", false)
    }

    pub fn end_object(&mut self) -> Result<(), AllocError> {
        self.end(b'}')
    }

    pub fn begin_array(&mut self) -> Result<(), AllocError> {
        self.put(b"[", false)
    }

    pub fn end_array(&mut self) -> Result<(), AllocError> {
        self.end(b']')
    }

    /// Appends the name of a member, and a colon.
    pub fn key(&mut self, name: &str) -> Result<(), AllocError> {
        self.put_quoted(name, b"\":", false)
    }

    pub fn string(&mut self, text: &str) -> Result<(), AllocError> {
        self.put_quoted(text, b"\"", true)
    }

    pub fn u64(&mut self, number: u64) -> Result<(), AllocError> {
        self.put(Buffer::new().format(number).as_bytes(), true)
    }

    pub fn boolean(&mut self, flag: bool) -> Result<(), AllocError> {
        self.put(if flag { b"true" } else { b"false" }, true)
    }

    pub fn null(&mut self) -> Result<(), AllocError> {
        self.put(b"null", true)
    }

    fn put(&mut self, token: &[u8], ends_value: bool) -> Result<(), AllocError> {
        if self.is_after_value {
            self.text.try_push(b',')?;
        }
        self.is_after_value = ends_value;
        self.text.try_extend_from_slice(token)
    }

    fn end(&mut self, bracket: u8) -> Result<(), AllocError> {
        self.is_after_value = true;
        Ok(self.text.try_push(bracket)?)
    }

    fn put_quoted(&mut self, text: &str, end: &[u8], ends_value: bool) -> Result<(), AllocError> {
        self.put(b"\"", ends_value)?;
        for byte in text.bytes() {
            self.put_escaped(byte)?;
        }
        self.text.try_extend_from_slice(end)
    }

    /// Appends a byte of a text. Quotation marks, backslashes and bytes below 32 are escaped.
    fn put_escaped(&mut self, byte: u8) -> Result<(), AllocError> {
        let letter = match byte {
            b'"' | b'\\' => byte,
            8 => b'b',
            b'\t' => b't',
            b'\n' => b'n',
            12 => b'f',
            b'\r' => b'r',
            0..=31 => {
                let low = b"0123456789abcdef"[usize::from(byte % 16)];
                self.text.try_extend_from_slice(b"\\u00")?;
                return self.text.try_extend_from_slice(&[b'0' + byte / 16, low]);
            }
            _ => return Ok(self.text.try_push(byte)?),
        };
        self.text.try_extend_from_slice(&[b'\\', letter])
    }
}

#[test]
fn control_characters_are_escaped() {
    for byte in 0..32 {
        let mut writer = Writer::new(Vec::new());
        writer.string(core::str::from_utf8(&[byte]).unwrap()).unwrap();
        let text = writer.into_inner();
        assert!(text.len() > 3 && text.iter().all(|it| *it >= 32), "{byte}");
    }
}
