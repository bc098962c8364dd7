use crate::Error;
use core::fmt;
use core::ops::Deref;

/// The bytes that a text has at most.
pub(crate) const SIZE: usize = 256;

/// What the report program prints, newlines included; read it as a `str`.
#[derive(Clone, Copy)]
pub struct Text {
    bytes: [u8; SIZE],
    length: usize,
}

impl Text {
    pub(crate) fn of(bytes: [u8; SIZE], length: usize) -> Result<Text, Error> {
        match bytes.get(..length) {
            Some(text) if text.is_ascii() => Ok(Text { bytes, length }),
            _ => Err(Error::Unexpected("what is no text")),
        }
    }
}

impl Deref for Text {
    type Target = str;

    fn deref(&self) -> &str {
        // `of` has seen that they are ASCII
        core::str::from_utf8(&self.bytes[..self.length]).unwrap_or_default()
    }
}

impl fmt::Display for Text {
    fn fmt(&self, out: &mut fmt::Formatter<'_>) -> fmt::Result {
        out.write_str(self)
    }
}

impl fmt::Debug for Text {
    fn fmt(&self, out: &mut fmt::Formatter<'_>) -> fmt::Result {
        fmt::Debug::fmt(&**self, out)
    }
}

#[cfg(test)]
mod tests {
    use super::*;

    #[test]
    fn what_is_no_text() {
        assert_eq!(Text::of([b'a'; SIZE], SIZE).as_deref().map(str::len), Ok(SIZE));
        assert_eq!(Text::of([b'a'; SIZE], 0).as_deref(), Ok(""));
        assert!(Text::of([b'a'; SIZE], SIZE + 1).is_err());
        assert!(Text::of([0xFF; SIZE], 1).is_err());
    }
}
