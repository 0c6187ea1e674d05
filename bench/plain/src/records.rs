//! Files of records: each is its length in four bytes, and so many bytes.

use crate::fields::Fields;

pub fn put_record(out: &mut Vec<u8>, record: &[u8]) {
    out.extend((record.len() as u32).to_be_bytes());
    out.extend_from_slice(record);
}

/// The records of a file; a torn one at the end is left out.
pub fn records(file: &[u8]) -> impl Iterator<Item = &[u8]> {
    let mut fields = Fields::new(file);
    std::iter::from_fn(move || {
        let len = fields.u32()?;
        fields.bytes(len as usize)
    })
}
