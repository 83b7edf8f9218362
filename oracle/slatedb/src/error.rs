//! Stand-in for error.rs: the two errors that the two files give. Decides nothing.
#[derive(Debug)]
pub struct Error {
    pub(crate) message: String,
}

impl Error {
    pub fn invalid(message: String) -> Self {
        Error { message }
    }
}

#[derive(Debug)]
pub enum SlateDBError {
    InvalidCompaction,
}
