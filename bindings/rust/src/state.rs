//! What the four states have in common: each is an array of numbers.

/// Defines a state that lies in cells.
macro_rules! state {
    ($(#[$about:meta])* $state:ident: [$cell:ty; $size:ident]) => {
        $(#[$about])*
        #[derive(Clone, PartialEq, Eq)]
        pub struct $state {
            pub(crate) cells: Box<[$cell; $size]>,
        }

        impl $state {
            /// The state that these cells say, laid out as [`layout`](crate::layout) has it.
            ///
            /// Nothing is checked here: every call checks what it is lent.
            ///
            /// ```
            #[doc = concat!("use galthumir::{layout::", stringify!($size), ", ", stringify!($state), "};")]
            ///
            #[doc = concat!("let cells = [0; ", stringify!($size), "];")]
            #[doc = concat!("let state = ", stringify!($state), "::from_cells(&cells);")]
            /// assert_eq!(state.cells(), &cells);
            /// ```
            pub fn from_cells(cells: &[$cell; $size]) -> Self {
                Self { cells: Box::new(*cells) }
            }

            /// The state as numbers, to keep, copy or hand to another program.
            ///
            /// ```
            #[doc = concat!("use galthumir::{layout::", stringify!($size), ", ", stringify!($state), "};")]
            ///
            #[doc = concat!("let state = ", stringify!($state), "::from_cells(&[0; ", stringify!($size), "]);")]
            #[doc = concat!("assert_eq!(", stringify!($state), "::from_cells(state.cells()), state);")]
            /// ```
            pub fn cells(&self) -> &[$cell; $size] {
                &self.cells
            }
        }
    };
}

pub(crate) use state;
