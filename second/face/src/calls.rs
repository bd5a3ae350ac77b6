//! How a call crosses to the archive, said once.

/// A safe function for each exported one: a slice crosses as a pointer and its length, anything else by value.
///
/// Every one is `#[inline]`, so that a program links only those that it calls.
macro_rules! calls {
    ($($symbol:ident as $name:ident($($lent:tt)*) -> $result:ty;)*) => {
        $(calls!(@ [$symbol $name ($($lent)*) $result] [] [] $($lent)*,);)*
    };
    (@ $call:tt [$($taken:tt)*] [$($handed:tt)*] $arg:ident: &[u8], $($rest:tt)*) => {
        calls!(@ $call [$($taken)* _: *const u8, _: usize,] [$($handed)* $arg.as_ptr(), $arg.len(),] $($rest)*);
    };
    (@ $call:tt [$($taken:tt)*] [$($handed:tt)*] $arg:ident: &mut [u8], $($rest:tt)*) => {
        calls!(@ $call [$($taken)* _: *mut u8, _: usize,] [$($handed)* $arg.as_mut_ptr(), $arg.len(),] $($rest)*);
    };
    (@ $call:tt [$($taken:tt)*] [$($handed:tt)*] $arg:ident: $kind:ty, $($rest:tt)*) => {
        calls!(@ $call [$($taken)* _: $kind,] [$($handed)* $arg,] $($rest)*);
    };
    (@ [$symbol:ident $name:ident ($($lent:tt)*) $result:ty] [$($taken:tt)*] [$($handed:tt)*] $(,)?) => {
        #[inline]
        pub fn $name($($lent)*) -> $result {
            extern "C" {
                fn $symbol($($taken)*) -> $result;
            }
            unsafe { $symbol($($handed)*) }
        }
    };
}
