//! The macros that are passed an allocator or the runtime.

#[macro_export]
macro_rules! println_to {
    ($rt:expr; $($said:tt)*) => {
        $crate::io::write_line(&$rt, ::std::io::stdout().lock(), ::std::format_args!($($said)*))
    };
}

#[macro_export]
macro_rules! format_in {
    ($alloc:expr; $($said:tt)*) => {
        $crate::string::String::from_str($alloc, &::std::format!($($said)*))
    };
}

#[macro_export]
macro_rules! vec_in {
    ($alloc:expr; $item:expr; $n:expr) => {
        $crate::vec::Vec::from_elem($alloc, $item, $n)
    };
    ($alloc:expr; $($item:expr),* $(,)?) => {
        $crate::vec::Vec::from_array($alloc, [$($item),*])
    };
}
