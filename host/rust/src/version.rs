//! The number that the package and its build script share.

/// The version of the archive that this package was written for: `build.rs` refuses an archive of any other. The header
/// `host/menkhodur.h` has the same number as `MENKHODUR_VERSION`, and `CHANGELOG.md` at the top of the repository tells what a host must
/// change from one version to the next.
///
/// ```
/// assert_eq!(menkhodur::version(), menkhodur::VERSION);
/// ```
pub const VERSION: u64 = 16;
