//! How the packages name their modules.

/// Modules that are erased from proved sources, whose style they have. The crates of the sources have other users, too, and
/// a parameter may be there for a proof alone.
macro_rules! erased {
    ($($name:ident)*) => { $(
        #[forbid(unsafe_code)]
        #[allow(unused, clippy::all)]
        mod $name;
    )* };
}
