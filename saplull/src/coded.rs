//! Refusals that have a code and a sentence, each said once.

/// An enum of refusals: the variant, its code and its sentence.
macro_rules! coded {
    ($(#[$about:meta])* $name:ident, $what:literal: $($variant:ident = $code:literal, $sentence:literal;)*) => {
        $(#[$about])*
        #[non_exhaustive]
        #[derive(Clone, Copy, Debug, PartialEq, Eq, Hash)]
        pub enum $name {
            $(#[doc = $sentence] $variant = $code,)*
        }

        impl $name {
            /// All of them, in the order of their codes.
            pub const ALL: &'static [$name] = &[$($name::$variant),*];

            /// The number of it.
            pub fn code(self) -> u8 {
                self as u8
            }

            /// What it says, for people.
            pub fn sentence(self) -> &'static str {
                match self {
                    $($name::$variant => $sentence,)*
                }
            }

            /// The one that the library answers by its code.
            pub(crate) fn answered(code: u32) -> $name {
                let found = $name::ALL.iter().find(|known| u32::from(known.code()) == code);
                *found.unwrap_or_else(|| $crate::foreign::other_version($what, code))
            }
        }

        impl std::fmt::Display for $name {
            fn fmt(&self, f: &mut std::fmt::Formatter<'_>) -> std::fmt::Result {
                f.write_str(self.sentence())
            }
        }

        impl std::error::Error for $name {}
    };
}

pub(crate) use coded;
