// The error type of plist 1.10.3, cut down from its src/error.rs so that it builds alone.
//
// Cut: the imports of quick_xml, InvalidXmlDate, Value and Event, and what needs them (the `From` impls, `of_event`, `of_value`,
// `unexpected_event_type`); `EventKind` with the two kinds of error that hold it; `Display`, `std::error::Error` and the public
// questions (`is_io`, `as_io`, ...). No ASCII list leads to any of these. What is left stands as it stood.
// Added, and marked so: `kind`, `position`, and two kinds of error that the crate does not have and that only `adjusted.rs` raises.

use std::io;

/// This type represents all possible errors that can occur when working with plist data.
#[derive(Debug)]
pub struct Error {
    inner: Box<ErrorImpl>,
}

#[derive(Debug)]
pub(crate) struct ErrorImpl {
    kind: ErrorKind,
    file_position: Option<FilePosition>,
}

#[derive(Debug)]
pub(crate) enum ErrorKind {
    UnexpectedEof,
    UnexpectedEndOfEventStream,

    // Ascii format-specific errors
    UnclosedString,
    IncompleteComment,
    InvalidUtf8AsciiStream,
    InvalidOctalString,

    InvalidUtf16String,

    Io(io::Error),

    // added
    TooLong,
    TextTooLong,
}

#[derive(Debug, Clone, Copy)]
pub(crate) struct FilePosition(pub(crate) u64);

impl ErrorKind {
    pub fn with_byte_offset(self, offset: u64) -> Error {
        self.with_position(FilePosition(offset))
    }

    pub fn with_position(self, pos: FilePosition) -> Error {
        Error {
            inner: Box::new(ErrorImpl {
                kind: self,
                file_position: Some(pos),
            }),
        }
    }
}

// added
impl Error {
    pub(crate) fn kind(&self) -> &ErrorKind {
        &self.inner.kind
    }

    pub(crate) fn position(&self) -> Option<u64> {
        self.inner.file_position.map(|position| position.0)
    }
}
