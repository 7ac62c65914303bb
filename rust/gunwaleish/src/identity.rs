//! Which library is linked: what `tools/library` wrote beside it.

/// What is known of the library that this crate was built with. What is not known is `unknown`.
#[derive(Clone, Copy, Debug, PartialEq, Eq, Hash)]
pub struct Identity {
    /// The commit whose proved code it is, as `git describe --always --dirty` names it.
    pub commit: &'static str,
    /// The kit that proved and compiled it, as `rt version` names it.
    pub kit: &'static str,
    /// The processor that it is for, as `uname -m` names it.
    pub machine: &'static str,
}

/// Which library is linked.
///
/// ```
/// let library = gunwaleish::library_identity();
/// for word in [library.commit, library.kit, library.machine] {
///     assert!(!word.is_empty());
/// }
/// ```
pub const fn library_identity() -> Identity {
    Identity {
        commit: env!("GUNWALEISH_COMMIT"),
        kit: env!("GUNWALEISH_KIT"),
        machine: env!("GUNWALEISH_MACHINE"),
    }
}
