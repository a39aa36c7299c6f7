//! The generator against known counts, against a second one that is plain and slow, against the archive's, and through the archive's reader.

mod common;
mod leaves;
mod narrowed;
mod plain;
mod proved;
mod rules;
