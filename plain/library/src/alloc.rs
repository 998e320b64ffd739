//! The allocator, and the errors of want of memory.
#[derive(Clone, Copy, Debug, PartialEq, Eq)]
pub struct Global;

#[derive(Clone, Copy, Debug, PartialEq, Eq)]
pub struct AllocError;

impl std::fmt::Display for AllocError {
    fn fmt(&self, f: &mut std::fmt::Formatter<'_>) -> std::fmt::Result {
        f.write_str("out of memory")
    }
}

impl std::error::Error for AllocError {}

/// The value that found no room.
pub struct AllocFailed<T> {
    pub value: T,
}

impl<T> std::fmt::Debug for AllocFailed<T> {
    fn fmt(&self, f: &mut std::fmt::Formatter<'_>) -> std::fmt::Result {
        f.write_str("AllocFailed")
    }
}

impl<T> std::fmt::Display for AllocFailed<T> {
    fn fmt(&self, f: &mut std::fmt::Formatter<'_>) -> std::fmt::Result {
        f.write_str("out of memory")
    }
}

impl<T> std::error::Error for AllocFailed<T> {}

impl<T> From<AllocFailed<T>> for AllocError {
    fn from(_: AllocFailed<T>) -> AllocError {
        AllocError
    }
}

impl From<AllocError> for std::io::Error {
    fn from(_: AllocError) -> std::io::Error {
        std::io::Error::from(std::io::ErrorKind::OutOfMemory)
    }
}

impl<T> From<AllocFailed<T>> for std::io::Error {
    fn from(_: AllocFailed<T>) -> std::io::Error {
        std::io::Error::from(std::io::ErrorKind::OutOfMemory)
    }
}
