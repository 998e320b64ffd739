//! The handle by which a program reaches the world.
use crate::alloc::{AllocError, Global};

/// What a program is given to reach files, its words and its output by.
#[derive(Debug)]
pub struct HostRuntime(());

impl HostRuntime {
    /// The runtime of this process.
    pub fn of_process() -> Self {
        HostRuntime(())
    }
    pub fn alloc(&self) -> Global {
        Global
    }
    /// The error stream.
    pub fn stderr(&self) -> std::io::Stderr {
        std::io::stderr()
    }
}

impl crate::Clone for HostRuntime {
    fn clone(&self) -> Result<Self, AllocError> {
        Ok(HostRuntime(()))
    }
}
