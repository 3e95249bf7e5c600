// The events of plist 1.10.3, cut down from its src/stream/mod.rs so that they build alone.
//
// Cut: the other readers, the writers, `Events` and `Reader`, which need other crates and other files; the cases `Date` and `Uid` of
// `Event`, whose types stand in such files and which no ASCII list yields. What is left stands as it stood.

mod ascii_reader;
pub use self::ascii_reader::AsciiReader;

use std::borrow::Cow;

use crate::Integer;

#[derive(Clone, Debug, PartialEq)]
#[non_exhaustive]
pub enum Event<'a> {
    // While the length of an array or dict cannot be feasably greater than max(usize) this better
    // conveys the concept of an effectively unbounded event stream.
    StartArray(Option<u64>),
    StartDictionary(Option<u64>),
    EndCollection,

    Boolean(bool),
    Data(Cow<'a, [u8]>),
    Integer(Integer),
    Real(f64),
    String(Cow<'a, str>),
}

/// An owned [`Event`].
///
/// During deserialization, events are always owned; this type alias helps
/// keep that code a bit clearer.
pub type OwnedEvent = Event<'static>;
