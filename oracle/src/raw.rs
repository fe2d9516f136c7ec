//! Raw numbers of an original type, its private fields included.

/// `raw! { Raw of Whole { field: type, .. } }` makes `Raw`, whose fields are all public, with
/// `Raw::of` and `build`.
///
/// The fields have the original's names. `build` names each field of `Whole`: a list that is not
/// complete does not compile.
macro_rules! raw {
    ($(#[$note:meta])* $raw:ident of $whole:ident { $($field:ident: $kind:ty,)* }) => {
        $(#[$note])*
        #[derive(Clone, Copy)]
        pub struct $raw {
            $(pub $field: $kind,)*
        }

        impl $raw {
            pub fn of(whole: &$whole) -> Self {
                Self { $($field: whole.$field,)* }
            }

            pub fn build(&self) -> $whole {
                $whole { $($field: self.$field,)* }
            }
        }
    };
}
