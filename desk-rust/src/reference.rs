//! What a node reads or writes, in plain numbers.

use crate::known::Node;
use crate::words::{address, counted};
use veilbuzz::Fields;

pub struct Reference<'a> {
    /// `read` or `write`.
    pub verb: &'static str,
    pub bytes: u64,
    /// Of the first byte.
    pub address: u64,
    /// The address by its name, where it has one.
    pub name: Option<&'a str>,
}

/// How many bytes the size code says.
fn bytes(fields: &Fields) -> u64 {
    1 << fields.size
}

/// The address of the last byte that a reference reads or writes.
pub fn last_byte(fields: &Fields) -> u64 {
    fields.address + bytes(fields) - 1
}

/// `None` for a bare step.
pub fn reference(node: &Node) -> Option<Reference<'_>> {
    let verb = match node.fields.kind {
        0 => return None,
        1 => "read",
        _ => "write",
    };
    Some(Reference {
        verb,
        bytes: bytes(&node.fields),
        address: node.fields.address,
        name: node.address.as_deref(),
    })
}

impl Reference<'_> {
    /// What is read or written, as `4 bytes at 0x20000080 (limit + 0x10)`.
    pub fn what(&self) -> String {
        let bytes = counted(self.bytes as usize, "byte");
        let name = self.name.map_or(String::new(), |name| format!(" ({name})"));
        format!("{bytes} at {}{name}", address(self.address))
    }
}

/// What a node does, in a few words.
pub fn doing(node: &Node) -> String {
    match reference(node) {
        Some(reference) => format!("{} {}", reference.verb, reference.what()),
        None => "step".into(),
    }
}
