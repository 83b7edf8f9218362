//! Stand-ins for bytes, log, ulid and slatedb_txn_obj. They decide: prefixes are equal where their bytes are; ULIDs are
//! ordered as 128-bit numbers, which is "high word first"; nothing is logged.

/// bytes: a prefix. 01's prefixes are numbers; `decode` says which bytes stand for which.
#[derive(Clone, Debug, Default, PartialEq, Eq, Hash)]
pub struct Bytes(pub(crate) Vec<u8>);

impl Bytes {
    pub fn new() -> Self {
        Bytes(Vec::new())
    }

    pub fn is_empty(&self) -> bool {
        self.0.is_empty()
    }
}

/// ulid
#[derive(Clone, Copy, Debug, PartialEq, Eq, PartialOrd, Ord, Hash)]
pub struct Ulid(pub(crate) u128);

impl std::fmt::Display for Ulid {
    fn fmt(&self, f: &mut std::fmt::Formatter<'_>) -> std::fmt::Result {
        write!(f, "{:032x}", self.0)
    }
}

/// slatedb_txn_obj: a value, without its version's number, at which the two files never look.
pub struct DirtyObject<T> {
    pub value: T,
}

/// log: the words are checked and dropped.
macro_rules! drop_words {
    ($($words:tt)*) => {
        if false {
            let _ = format!($($words)*);
        }
    };
}
pub(crate) use drop_words as debug;
pub(crate) use drop_words as error;
pub(crate) use drop_words as info;
pub(crate) use drop_words as warn;
