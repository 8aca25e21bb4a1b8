//! Stand-in for the crate arrow: the few types that the Rust text names.

pub mod compute {
    /// How a sort key is sorted.
    #[derive(Clone, Copy, Debug, Default, PartialEq, Eq, Hash)]
    pub struct SortOptions {
        pub descending: bool,
        pub nulls_first: bool,
    }
}

pub mod datatypes {
    use std::sync::Arc;

    /// A schema. Only functions that are left to the engine take one, so it holds nothing.
    #[derive(Debug)]
    pub struct Schema;

    pub type SchemaRef = Arc<Schema>;
}
