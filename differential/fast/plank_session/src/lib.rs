//! Fast stand-in for `plank_session`: offsets into a source, names, bytes, and the reports made.

mod arena;
mod names;

use arena::Arena;
use names::Names;
use plank_core::{Idx, Span, newtype_index};

newtype_index! {
    pub struct SourceByteOffset;
    pub struct SourceId;
    pub struct StrId;
    pub struct BytesId;
}

pub type SourceSpan = Span<SourceByteOffset>;

/// What one emit call was given.
#[derive(Debug, Clone, Copy, PartialEq, Eq)]
pub struct Report {
    pub kind: u32,
    pub detail: u32,
    pub span: SourceSpan,
}

pub struct Session {
    names: Names,
    bytes: Arena,
    reports: Vec<Report>,
}

impl Session {
    #[allow(clippy::new_without_default)]
    #[inline]
    pub fn new() -> Self {
        Session { names: Names::default(), bytes: Arena::default(), reports: Vec::new() }
    }

    /// Equal names get one number.
    #[inline]
    pub fn intern(&mut self, name: &str) -> StrId {
        StrId::new(self.names.number(name.as_bytes()))
    }

    pub fn name(&self, id: StrId) -> &str {
        str::from_utf8(self.names.name(id.get())).expect("a name is a text")
    }

    /// Each call gets a number of its own: nothing compared depends on sharing.
    #[inline]
    pub fn intern_bytes(&mut self, bytes: &[u8]) -> BytesId {
        BytesId::new(self.bytes.put(bytes))
    }

    pub fn bytes(&self, id: BytesId) -> &[u8] {
        self.bytes.get(id.get())
    }

    #[inline]
    pub fn report(&mut self, kind: u32, detail: u32, span: SourceSpan) {
        self.reports.push(Report { kind, detail, span });
    }

    pub fn reports(&self) -> &[Report] {
        &self.reports
    }
}
