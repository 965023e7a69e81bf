//! Stands in for the crate `bitflags` 2; Debian 12 has only version 1, whose macro derives `Clone`, `Copy` and `Debug`
//! by itself and so refuses the text's own `#[derive(..)]`. Only what the text uses: `all`, `bits`, `contains`,
//! `from_bits_truncate` and the named flags.

#[macro_export]
macro_rules! bitflags {
    (
        $(#[$attribute:meta])*
        $vis:vis struct $name:ident: $t:ty {
            $(const $flag:ident = $value:expr;)*
        }
    ) => {
        $(#[$attribute])*
        $vis struct $name($t);

        #[allow(dead_code)]
        impl $name {
            $(pub const $flag: $name = $name($value);)*

            /// All named flags.
            pub const fn all() -> $name {
                $name(0 $(| $value)*)
            }

            pub const fn bits(&self) -> $t {
                self.0
            }

            /// The named flags among these bits; other bits are dropped.
            pub const fn from_bits_truncate(bits: $t) -> $name {
                $name(bits & $name::all().0)
            }

            /// Whether every flag of `other` is here.
            pub const fn contains(&self, other: $name) -> bool {
                self.0 & other.0 == other.0
            }
        }
    };
}
