//! Tables, which fonts share.

use crate::fault::Fault;
use crate::raw::{Shared, kus_tables_create, kus_tables_create_default, kus_tables_destroy, kus_tables_reference};
use std::fmt;

/// Tables of characters, syllables and languages. Threads may share them, and wait for each other; `another` gives a
/// thread its own handle of them.
pub struct Tables {
    pub(crate) handle: Shared,
}

impl Tables {
    fn empty() -> Tables {
        Tables { handle: Shared::empty() }
    }

    /// Reads tables (JSON), which must be lawful.
    pub fn new(json: &[u8]) -> Result<Tables, Fault> {
        let mut tables = Tables::empty();
        Fault::check(unsafe { kus_tables_create(tables.handle.own(), json.as_ptr(), json.len()) })?;
        Ok(tables)
    }

    /// The tables that are inside the library, those of Unicode 15.0.
    pub fn library() -> Result<Tables, Fault> {
        let mut tables = Tables::empty();
        Fault::check(unsafe { kus_tables_create_default(tables.handle.own()) })?;
        Ok(tables)
    }

    /// The same tables for another thread.
    pub fn another(&self) -> Result<Tables, Fault> {
        let mut tables = Tables::empty();
        Fault::check(self.handle.with(|shared| unsafe { kus_tables_reference(shared, tables.handle.own()) }))?;
        Ok(tables)
    }
}

impl fmt::Debug for Tables {
    fn fmt(&self, f: &mut fmt::Formatter<'_>) -> fmt::Result {
        f.debug_struct("Tables").finish_non_exhaustive()
    }
}

impl Drop for Tables {
    fn drop(&mut self) {
        unsafe { kus_tables_destroy(self.handle.own()) }
    }
}
