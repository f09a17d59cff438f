//! The published selector.rs, style.rs and matcher.rs, unchanged, with
//! stand-ins for what they lean on of the rest of the crate
//! `understory_style`, whose text is not given.

extern crate alloc;

#[rustfmt::skip]
#[path = "../../../../shared/docs/src/src--understory_style--src--selector.rs.txt"]
pub mod selector;

// What only the published resolve.rs calls is left uncalled here: that file
// is left behind.
#[allow(dead_code)]
#[rustfmt::skip]
#[path = "../../../../shared/docs/src/src--understory_style--src--style.rs.txt"]
pub mod style;

#[allow(dead_code)]
#[rustfmt::skip]
#[path = "../../../../shared/docs/src/src--understory_style--src--matcher.rs.txt"]
pub mod matcher;

/// Stand-in for the published stylesheet.rs.
pub mod stylesheet {
    /// Stand-in for the published origin: an ordered rank, the higher wins.
    /// Document 01 has the ranks 0 to 7.
    #[derive(Copy, Clone, Debug, PartialEq, Eq, PartialOrd, Ord)]
    pub struct StyleOrigin(pub u8);

    impl StyleOrigin {
        /// The one origin that matcher.rs names (in `MatcherBuilder`, which
        /// is left behind); which rank it has there is not known.
        #[allow(non_upper_case_globals)]
        pub const Sheet: Self = Self(0);
    }
}

/// Stand-in for the published key of a theme resource: a number.
#[derive(Copy, Clone, Debug, PartialEq, Eq)]
pub struct ResourceKey(pub u32);
