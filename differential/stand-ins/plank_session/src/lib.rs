//! Stand-in for `plank_session`: offsets into a source, names, bytes, and the reports made.

use hooks::{Call, tell};
use plank_core::{IndexVec, Span, newtype_index};
use std::collections::HashMap;

newtype_index! {
    pub struct SourceByteOffset;
    pub struct SourceId;
    pub struct StrId;
    pub struct BytesId;
}

pub type SourceSpan = Span<SourceByteOffset>;

/// What one emit call was given.
#[derive(Debug, Clone, Copy, PartialEq, Eq)]
pub struct Report {
    pub kind: u32,
    pub detail: u32,
    pub span: SourceSpan,
}

pub struct Session {
    names: IndexVec<StrId, String>,
    name_ids: HashMap<String, StrId>,
    bytes: IndexVec<BytesId, Vec<u8>>,
    reports: Vec<Report>,
}

impl Session {
    #[allow(clippy::new_without_default)]
    pub fn new() -> Self {
        Session {
            names: IndexVec::with_capacity(0),
            name_ids: HashMap::new(),
            bytes: IndexVec::with_capacity(0),
            reports: Vec::new(),
        }
    }

    /// Equal names get one number.
    pub fn intern(&mut self, name: &str) -> StrId {
        if let Some(id) = self.name_ids.get(name) {
            return *id;
        }
        let id = self.names.push(name.to_string());
        self.name_ids.insert(name.to_string(), id);
        id
    }

    pub fn name(&self, id: StrId) -> &str {
        &self.names[id]
    }

    /// Each call gets a number of its own: nothing compared depends on sharing.
    pub fn intern_bytes(&mut self, bytes: &[u8]) -> BytesId {
        tell(Call::Bytes(bytes));
        self.bytes.push(bytes.to_vec())
    }

    pub fn bytes(&self, id: BytesId) -> &[u8] {
        &self.bytes[id]
    }

    pub fn report(&mut self, kind: u32, detail: u32, span: SourceSpan) {
        tell(Call::Report);
        self.reports.push(Report { kind, detail, span });
    }

    pub fn reports(&self) -> &[Report] {
        &self.reports
    }
}
