"""What the crates use of Rattle's library and of the toolkit's other libraries, with the same
meaning in `rattle_std`.

The export refuses everything else. Before a name is added here: read what the toolkit's library
promises of it, write it in `library/` where Rust's own differs, and let the session cases run.
"""

# Attributes, by the word they begin with.
ATTRIBUTES = frozenset({'derive', 'tactic', 'cycle', 'error', 'cfg', 'test'})
# Names that a derive may have.
DERIVES = frozenset(
    {'Clone', 'Copy', 'Debug', 'Drop', 'Eq', 'Error', 'Hash', 'Ord', 'PartialEq', 'PartialOrd'}
)
# Macros, and how their arguments begin: `in` an allocator, `rt` a handle with a semicolon, or
# nothing of Rattle's.
MACROS = {
    'assert': 'rt',
    'assert_eq': 'rt',
    'bail': '',
    'format': 'in',
    'format_args': '',
    'matches': '',
    'println': 'rt',
    'unreachable': '',
    'vec': 'in',
    'write': '',
}
# Words of Rust that the crates don't use, and words of Rattle that code never has: each is refused.
REFUSED_WORDS = frozenset(
    {
        'also_owns',
        'async',
        'await',
        'derive_where',
        'ensures',
        'extern',
        'final',
        'ghost',
        'macro_rules',
        'requires',
        'static',
        'union',
        'unsafe',
        'yield',
        'size_of',
        'align_of',
        'transmute',
    }
)

# Modules that are imported as such, and then named in paths.
MODULES = frozenset({'std::env', 'std::fmt', 'std::fs', 'std::io', 'std::mem', 'std::slice'})

# Paths, as they are written once imports are put in: types, traits, functions, and what belongs to
# a type.
STD = frozenset(
    '''
std::alloc::AllocError
std::alloc::AllocFailed
std::alloc::Global
std::boxed::Box::new
std::cell::Cell
std::cell::Cell::new
std::cmp::Ordering
std::collections::BTreeMap
std::collections::BTreeMap::new
std::collections::BTreeSet
std::collections::BTreeSet::new
std::collections::HashMap
std::collections::HashMap::new
std::collections::HashMap::with_capacity
std::collections::HashSet
std::collections::HashSet::new
std::env::args
std::fmt::Display
std::fmt::Result
std::fmt::Write
std::fs::File
std::fs::open
std::fs::read_to_string
std::hash::Hash
std::hash::Hasher
std::io::Cursor
std::io::Cursor::new
std::io::Error::from
std::io::ErrorKind
std::io::ErrorKind::Interrupted
std::io::ErrorKind::NotFound
std::io::ErrorKind::OutOfMemory
std::io::Read
std::io::Result
std::io::Write
std::io::writer
std::marker::PhantomData
std::mem::forget
std::mem::replace
std::mem::swap
std::ops::Index
std::process::ExitCode
std::process::ExitCode::from
std::rc::Rc
std::rc::Rc::make_mut
std::rc::Rc::new
std::slice::from_ref
std::str::from_utf8
std::string::String::from_str
std::string::String::with_capacity
std::test::Fail
std::vec::Vec::from_slice
std::vec::Vec::new
std::vec::Vec::with_capacity
'''.split()
)
KIT = frozenset(
    '''
anyhow::Context
anyhow::Result
anyhow::bail
clap::Arg
clap::Arg::new
clap::ArgMatches
clap::Command
clap::Command::new
clap::builder::ValueParser
clap::builder::ValueParser::unsigned
clap::error::ErrorKind
clap::error::ErrorKind::OutOfMemory
indexmap::IndexMap
indexmap::IndexMap::new
indexmap::IndexMap::with_capacity
indexmap::IndexSet
indexmap::IndexSet::new
itoa::Buffer
itoa::Buffer::new
jiff::civil::Date
jiff::civil::Date::new
memchr::memchr
memchr::memchr_iter
'''.split()
)
# The libraries of the toolkit besides `std`.
KIT_CRATES = ('anyhow', 'clap', 'indexmap', 'itoa', 'jiff', 'memchr', 'thiserror')
# Types that are in scope without an import, by their path.
PRELUDE = {
    'Box': 'std::boxed::Box',
    'String': 'std::string::String',
    'Vec': 'std::vec::Vec',
    'str': 'std::str',
    'Option': 'std::option::Option',
    'Result': 'std::result::Result',
}
PRIMITIVES = frozenset(
    {
        'bool',
        'char',
        'f32',
        'f64',
        'i8',
        'i16',
        'i32',
        'i64',
        'i128',
        'isize',
        'u8',
        'u16',
        'u32',
        'u64',
        'u128',
        'usize',
    }
)
OF_PRIMITIVES = frozenset(
    {'char::from_u32', 'i64::from', 'u16::from', 'u32::from', 'u64::MAX', 'u64::from'}
)

# Traits of the library that the crates implement.
IMPLEMENTED = frozenset(
    {'Clone', 'From', 'Hash', 'Index', 'Model', 'Ord', 'PartialOrd', 'Write', 'fmt::Display'}
)

# Methods of the library. A method that a crate declares is taken from there as it is.
METHODS = frozenset(
    '''
all alloc allocator and any append arg as_bytes as_mut as_ref as_slice as_str binary_search_by_key
capacity chars checked_add clear clone cmp collect contains context copied copy_from_slice count
dedup dedup_by disable_help_flag disable_version_flag encode_utf8 entry enumerate
extend_from_slice filter filter_map find first flatten flush fold format get get_mut get_one
get_str hash insert into_iter is_ascii_digit is_empty is_eq is_err is_lt is_none is_none_or is_ok
is_some is_some_and iter iter_mut keys kind last last_mut len lines long map map_or min next ok_or
open or_insert parse partition_point pop pop_first position pow push put read remove required
reserve reserve_exact retain rev saturating_add saturating_mul saturating_sub set sort sort_by
split_at split_first split_once stderr strip_prefix swap_remove take then to_digit to_vec
try_get_matches_from unsigned_abs unwrap unwrap_or value_parser wrapping_mul write write_u64 writeln
'''.split()
)
