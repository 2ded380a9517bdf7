//! What std of the sources has and Rust's hasn't: growths that return an error, with the allocator as an argument.
use std::borrow::Cow;
use std::collections::{BTreeMap, BTreeSet, TryReserveError};
use std::hash::Hash;
use std::rc::Rc;
use std::sync::Arc;

pub type AllocError = TryReserveError;

/// The allocator. Rust's types have it already.
#[derive(Clone, Copy, Debug, PartialEq)]
pub struct Global;

pub type ArcSlice<T> = Arc<[T]>;
pub type ArcStr = Arc<str>;
pub type BoxedSlice<T> = Box<[T]>;
pub type BoxedStr = Box<str>;
pub type CowSlice<'a, T> = Cow<'a, [T]>;
pub type CowStr<'a> = Cow<'a, str>;
pub type RcSlice<T> = Rc<[T]>;
pub type RcStr = Rc<str>;

/// `Type::made(alloc, value)`.
pub trait Made<From>: Sized {
    fn made(alloc: Global, from: From) -> Result<Self, AllocError>;
}

macro_rules! copied {
    ($($type:ty: $($name:ident)*;)*) => {
        $($(impl<T: Clone> Made<&[T]> for $name<$type> {
            fn made(_: Global, from: &[T]) -> Result<Self, AllocError> {
                Ok(from.into())
            }
        }

        impl<T: Clone, const N: usize> Made<&[T; N]> for $name<$type> {
            fn made(_: Global, from: &[T; N]) -> Result<Self, AllocError> {
                Ok(from[..].into())
            }
        })*)*
    };
}

copied! {
    T: Vec;
    [T]: Box Rc Arc;
}

macro_rules! texts {
    ($($type:ty)*) => {
        $(impl Made<&str> for $type {
            fn made(_: Global, from: &str) -> Result<Self, AllocError> {
                Ok(from.into())
            }
        })*
    };
}

texts!(String BoxedStr RcStr ArcStr);

macro_rules! made {
    ($($name:ident)*) => {
        $(impl<T> Made<T> for $name<T> {
            fn made(_: Global, from: T) -> Result<Self, AllocError> {
                Ok($name::new(from))
            }
        })*
    };
}

made!(Box Rc Arc);

pub trait Grows {
    fn checked_push_str(&mut self, text: &str) -> Result<(), AllocError>;
}

impl Grows for String {
    fn checked_push_str(&mut self, text: &str) -> Result<(), AllocError> {
        self.push_str(text);
        Ok(())
    }
}

pub trait Pushes<T> {
    fn checked_push(&mut self, item: T) -> Result<(), AllocError>;
}

impl Pushes<char> for String {
    fn checked_push(&mut self, item: char) -> Result<(), AllocError> {
        self.push(item);
        Ok(())
    }
}

impl<T> Pushes<T> for Vec<T> {
    fn checked_push(&mut self, item: T) -> Result<(), AllocError> {
        self.push(item);
        Ok(())
    }
}

pub trait PushesBack<T> {
    fn checked_push_back(&mut self, item: T) -> Result<(), AllocError>;
    fn checked_push_front(&mut self, item: T) -> Result<(), AllocError>;
}

macro_rules! pushes_back {
    ($($name:ident)*) => {
        $(impl<T> PushesBack<T> for std::collections::$name<T> {
            fn checked_push_back(&mut self, item: T) -> Result<(), AllocError> {
                self.push_back(item);
                Ok(())
            }

            fn checked_push_front(&mut self, item: T) -> Result<(), AllocError> {
                self.push_front(item);
                Ok(())
            }
        })*
    };
}

pushes_back!(VecDeque LinkedList);

pub trait Inserts<T> {
    type Old;
    fn checked_insert(&mut self, item: T) -> Result<Self::Old, AllocError>;
}

impl<T: Ord> Inserts<T> for BTreeSet<T> {
    type Old = bool;
    fn checked_insert(&mut self, item: T) -> Result<bool, AllocError> {
        Ok(self.insert(item))
    }
}

impl<T: Eq + Hash> Inserts<T> for std::collections::HashSet<T> {
    type Old = bool;
    fn checked_insert(&mut self, item: T) -> Result<bool, AllocError> {
        Ok(self.insert(item))
    }
}

/// `map.checked_insert(key, value)`.
pub trait InsertsPair<K, V> {
    fn checked_insert(&mut self, key: K, value: V) -> Result<Option<V>, AllocError>;
}

impl<K: Ord, V> InsertsPair<K, V> for BTreeMap<K, V> {
    fn checked_insert(&mut self, key: K, value: V) -> Result<Option<V>, AllocError> {
        Ok(self.insert(key, value))
    }
}

impl<K: Eq + Hash, V> InsertsPair<K, V> for std::collections::HashMap<K, V> {
    fn checked_insert(&mut self, key: K, value: V) -> Result<Option<V>, AllocError> {
        Ok(self.insert(key, value))
    }
}

impl<T: Ord, const N: usize> Made<[T; N]> for std::collections::BinaryHeap<T> {
    fn made(_: Global, from: [T; N]) -> Result<Self, AllocError> {
        Ok(from.into())
    }
}

#[macro_export]
macro_rules! made_text {
    ($alloc:expr; $($form:tt)*) => {{
        let _ = $alloc;
        Ok::<String, $crate::AllocError>(format!($($form)*))
    }};
}

#[macro_export]
macro_rules! made_list {
    ($alloc:expr; $($items:tt)*) => {{
        let _ = $alloc;
        Ok::<_, $crate::AllocError>(vec![$($items)*])
    }};
}
