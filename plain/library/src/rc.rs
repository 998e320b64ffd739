//! Shared values.
use crate::alloc::{AllocError, AllocFailed, Global};
use std::ops::Deref;

#[derive(Debug)]
pub struct Rc<T>(std::rc::Rc<T>);

impl<T> Rc<T> {
    pub fn new(_: Global, value: T) -> Result<Self, AllocFailed<T>> {
        Ok(Rc(std::rc::Rc::new(value)))
    }
    pub fn clone(&self) -> Result<Self, AllocError> {
        Ok(Rc(std::rc::Rc::clone(&self.0)))
    }
    pub fn as_ref(&self) -> &T {
        &self.0
    }
    pub fn ptr_eq(a: &Self, b: &Self) -> bool {
        std::rc::Rc::ptr_eq(&a.0, &b.0)
    }
    pub fn make_mut(this: &mut Self) -> Result<&mut T, AllocError>
    where
        T: crate::Clone,
    {
        if std::rc::Rc::get_mut(&mut this.0).is_none() {
            this.0 = std::rc::Rc::new((*this.0).clone()?);
        }
        std::rc::Rc::get_mut(&mut this.0).ok_or(AllocError)
    }
}

impl<T> crate::Clone for Rc<T> {
    fn clone(&self) -> Result<Self, AllocError> {
        Ok(Rc(std::rc::Rc::clone(&self.0)))
    }
}

impl<T> Deref for Rc<T> {
    type Target = T;
    fn deref(&self) -> &T {
        &self.0
    }
}
