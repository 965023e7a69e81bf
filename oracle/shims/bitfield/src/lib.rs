//! Stands in for the crate `bitfield`, which Debian 12 lacks: named bits of a word, `high, low` both inclusive, with a
//! getter and, unless it is `_`, a setter that stores the low bits of its value and leaves the others. Only the forms
//! that the text uses; a field's default type is the word's unless a line such as `u16;` names one.

#[macro_export]
macro_rules! bitfield {
    ($(#[$attribute:meta])* $vis:vis struct $name:ident($t:ty); $($rest:tt)*) => {
        $(#[$attribute])*
        $vis struct $name(pub $t);
        $crate::bitfield_items! { $name $t; $($rest)* }
    };
}

#[doc(hidden)]
#[macro_export]
macro_rules! bitfield_items {
    ($name:ident $t:ty; impl Debug; $($rest:tt)*) => {
        impl ::std::fmt::Debug for $name {
            fn fmt(&self, f: &mut ::std::fmt::Formatter<'_>) -> ::std::fmt::Result {
                f.debug_tuple(stringify!($name)).field(&self.0).finish()
            }
        }
        $crate::bitfield_items! { $name $t; $($rest)* }
    };
    ($name:ident $t:ty; u16; $($rest:tt)*) => {
        #[allow(dead_code, non_snake_case)]
        impl $name { $crate::bitfield_fields! { $t, u16; $($rest)* } }
    };
    ($name:ident $t:ty; u32; $($rest:tt)*) => {
        #[allow(dead_code, non_snake_case)]
        impl $name { $crate::bitfield_fields! { $t, u32; $($rest)* } }
    };
    ($name:ident $t:ty; $($rest:tt)*) => {
        #[allow(dead_code, non_snake_case)]
        impl $name { $crate::bitfield_fields! { $t, $t; $($rest)* } }
    };
}

// $t is the word, $d the default type of a field's value.
#[doc(hidden)]
#[macro_export]
macro_rules! bitfield_fields {
    ($t:ty, $d:ty;) => {};
    ($t:ty, $d:ty; #[$attribute:meta] $($rest:tt)*) => {
        $crate::bitfield_fields! { $t, $d; $($rest)* }
    };
    ($t:ty, $d:ty; $vis:vis into $into:ty, $get:ident, _: $high:literal, $low:literal; $($rest:tt)*) => {
        #[inline]
        $vis fn $get(&self) -> $into {
            ($crate::bits!(self.0, $t, $high, $low) as $d).into()
        }
        $crate::bitfield_fields! { $t, $d; $($rest)* }
    };
    ($t:ty, $d:ty; $vis:vis $get:ident, _: $high:literal, $low:literal; $($rest:tt)*) => {
        #[inline]
        $vis fn $get(&self) -> $d {
            $crate::bits!(self.0, $t, $high, $low) as $d
        }
        $crate::bitfield_fields! { $t, $d; $($rest)* }
    };
    ($t:ty, $d:ty; $vis:vis $get:ident, $set:ident: $high:literal, $low:literal; $($rest:tt)*) => {
        $crate::bitfield_fields! { $t, $d; $vis $get, _: $high, $low; }
        #[inline]
        $vis fn $set(&mut self, value: $d) {
            let mask = $crate::bits!(<$t>::MAX, $t, $high, $low) << $low;
            self.0 = (self.0 & !mask) | (((value as $t) << $low) & mask);
        }
        $crate::bitfield_fields! { $t, $d; $($rest)* }
    };
    ($t:ty, $d:ty; $vis:vis $get:ident, _: $bit:literal; $($rest:tt)*) => {
        #[inline]
        $vis fn $get(&self) -> bool {
            self.0 >> $bit & 1 != 0
        }
        $crate::bitfield_fields! { $t, $d; $($rest)* }
    };
    ($t:ty, $d:ty; $vis:vis $get:ident, $set:ident: $bit:literal; $($rest:tt)*) => {
        $crate::bitfield_fields! { $t, $d; $vis $get, _: $bit; }
        #[inline]
        $vis fn $set(&mut self, value: bool) {
            self.0 = (self.0 & !(1 << $bit)) | (<$t>::from(value) << $bit);
        }
        $crate::bitfield_fields! { $t, $d; $($rest)* }
    };
    ($t:ty, $d:ty; $vis:vis $own:ty, $get:ident, _: $high:literal, $low:literal; $($rest:tt)*) => {
        #[inline]
        $vis fn $get(&self) -> $own {
            $crate::bits!(self.0, $t, $high, $low) as $own
        }
        $crate::bitfield_fields! { $t, $d; $($rest)* }
    };
}

#[doc(hidden)]
#[macro_export]
macro_rules! bits {
    ($word:expr, $t:ty, $high:literal, $low:literal) => {
        ($word >> $low) & (<$t>::MAX >> (<$t>::BITS - 1 - ($high - $low)))
    };
}
