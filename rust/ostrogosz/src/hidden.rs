//! Debug forms that leave identities out.

use core::fmt::{self, Debug, Formatter};

/// Stands in a debug form for what is not shown.
pub(crate) struct Hidden;

impl Debug for Hidden {
    fn fmt(&self, to: &mut Formatter<'_>) -> fmt::Result {
        to.write_str("(hidden)")
    }
}

/// A debug form that shows some fields, and of the others that they are there:
/// a line of a log must not give an identity away.
macro_rules! debug_without {
    ($type:ident { $($shown:ident,)* } hidden { $($hidden:ident,)* }) => {
        impl core::fmt::Debug for $type {
            fn fmt(&self, to: &mut core::fmt::Formatter<'_>) -> core::fmt::Result {
                // Every field is named, so that none is forgotten.
                let Self { $($shown,)* $($hidden: _,)* } = self;
                to.debug_struct(stringify!($type))
                    $(.field(stringify!($shown), $shown))*
                    $(.field(stringify!($hidden), &crate::hidden::Hidden))*
                    .finish()
            }
        }
    };
}

pub(crate) use debug_without;
