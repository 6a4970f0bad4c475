//! Enums of which each case has a name for the coverage table.

/// The enum, all its cases in order, and their names.
macro_rules! named {
    ($(#[$about:meta])* $kind:ident { $($case:ident => $name:literal,)* }) => {
        $(#[$about])*
        #[derive(Clone, Copy, Debug, PartialEq, Eq, PartialOrd, Ord)]
        pub enum $kind { $($case,)* }

        impl $kind {
            pub const ALL: &'static [$kind] = &[$($kind::$case,)*];

            pub fn name(self) -> &'static str {
                match self { $($kind::$case => $name,)* }
            }
        }
    };
}

pub(crate) use named;
