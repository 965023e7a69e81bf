//! Stands in for the workspace crate `rustboyadvance_utils` of rustboyadvance-ng, whose text is not among the files
//! given. What a draw uses of it is `index2d!`, row-major: `w * y + x`, and with a type first, computed in that type.
//! `Shared` and `WeakPointer` are only named by the text; no draw follows one.

use std::ops::{Deref, DerefMut};
use std::rc::Rc;

#[macro_export]
macro_rules! index2d {
    ($x:expr, $y:expr, $w:expr) => {
        ($w) * ($y) + ($x)
    };
    ($t:ty, $x:expr, $y:expr, $w:expr) => {
        (($w) as $t) * (($y) as $t) + (($x) as $t)
    };
}

/// A value with several owners.
#[derive(Debug)]
pub struct Shared<T>(Rc<std::cell::UnsafeCell<T>>);

impl<T> Shared<T> {
    pub fn new(value: T) -> Shared<T> {
        Shared(Rc::new(std::cell::UnsafeCell::new(value)))
    }
}

impl<T> Clone for Shared<T> {
    fn clone(&self) -> Shared<T> {
        Shared(self.0.clone())
    }
}

impl<T> Deref for Shared<T> {
    type Target = T;
    fn deref(&self) -> &T {
        unsafe { &*self.0.get() }
    }
}

impl<T> DerefMut for Shared<T> {
    fn deref_mut(&mut self) -> &mut T {
        unsafe { &mut *self.0.get() }
    }
}

/// A pointer back to an owner.
pub struct WeakPointer<T>(*mut T);

impl<T> WeakPointer<T> {
    pub fn new(pointer: *mut T) -> WeakPointer<T> {
        WeakPointer(pointer)
    }
}

impl<T> Default for WeakPointer<T> {
    fn default() -> WeakPointer<T> {
        WeakPointer(std::ptr::null_mut())
    }
}

impl<T> Clone for WeakPointer<T> {
    fn clone(&self) -> WeakPointer<T> {
        WeakPointer(self.0)
    }
}

impl<T> Deref for WeakPointer<T> {
    type Target = T;
    fn deref(&self) -> &T {
        assert!(!self.0.is_null(), "nothing connects this pointer in the oracle");
        unsafe { &*self.0 }
    }
}
