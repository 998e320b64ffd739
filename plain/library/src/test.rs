//! Tests that take the runtime.
use crate::rt::HostRuntime;

/// Any error that can be shown: it ends a test.
pub struct Fail(std::string::String);

impl<E: std::fmt::Debug> From<E> for Fail {
    fn from(error: E) -> Fail {
        Fail(format!("{error:?}"))
    }
}

/// Runs the body of a test, and fails where it ends with an error.
pub fn run<F: FnOnce(HostRuntime) -> Result<(), Fail>>(body: F) {
    if let Err(fail) = body(HostRuntime::of_process()) {
        panic!("{}", fail.0);
    }
}
