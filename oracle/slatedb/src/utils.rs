//! Stand-in for utils.rs: display text, left out by 01.
pub(crate) fn format_bytes_si(bytes: u64) -> String {
    bytes.to_string()
}
