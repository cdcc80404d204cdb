//! Stands in for the crate `bitflags`: a `bitflags!` macro that is enough for `PageTableFlags`.

/// A struct over the bits with a constant for each flag. Bits that are no flag are kept.
#[macro_export]
macro_rules! bitflags {
    (
        $(#[$outer:meta])*
        $visibility:vis struct $name:ident: $bits:ty {
            $($(#[$inner:meta])* const $flag:ident = $value:expr;)*
        }
    ) => {
        $(#[$outer])*
        $visibility struct $name($bits);

        impl $name {
            $($(#[$inner])* pub const $flag: Self = Self($value);)*

            /// The bits, among them those that are no flag.
            #[inline]
            pub const fn bits(&self) -> $bits {
                self.0
            }

            /// The flags with exactly these bits.
            #[inline]
            pub const fn from_bits_retain(bits: $bits) -> Self {
                Self(bits)
            }

            /// Whether all bits of the other are set.
            #[inline]
            pub const fn contains(&self, other: Self) -> bool {
                self.0 & other.0 == other.0
            }
        }
    };
}
