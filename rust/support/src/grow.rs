//! Calls that allocate and return an error if memory is exhausted. Those of std abort.

use crate::AllocError;
use alloc::string::String;
use alloc::vec::Vec;
use core::fmt::{self, Display, Write};

type Result<T> = core::result::Result<T, AllocError>;

/// Values that begin with a capacity.
pub trait Allocate: Sized {
    fn checked_with_capacity(capacity: usize) -> Result<Self>;
}

impl<T> Allocate for Vec<T> {
    fn checked_with_capacity(capacity: usize) -> Result<Vec<T>> {
        let mut made = Vec::new();
        made.try_reserve_exact(capacity)?;
        Ok(made)
    }
}

impl Allocate for String {
    fn checked_with_capacity(capacity: usize) -> Result<String> {
        let mut made = String::new();
        made.try_reserve_exact(capacity)?;
        Ok(made)
    }
}

/// Lists that grow.
pub trait Grow<T> {
    fn checked_push(&mut self, item: T) -> Result<()>;
    fn checked_resize(&mut self, len: usize, item: T) -> Result<()>
    where
        T: Clone;
    fn checked_resize_with<F: FnMut() -> T>(&mut self, len: usize, make: F) -> Result<()>;
    fn checked_extend_from_slice(&mut self, items: &[T]) -> Result<()>
    where
        T: Clone;
}

impl<T> Grow<T> for Vec<T> {
    #[inline]
    fn checked_push(&mut self, item: T) -> Result<()> {
        self.try_reserve(1)?;
        self.push(item);
        Ok(())
    }

    #[inline]
    fn checked_resize(&mut self, len: usize, item: T) -> Result<()>
    where
        T: Clone,
    {
        self.try_reserve(len.saturating_sub(self.len()))?;
        self.resize(len, item);
        Ok(())
    }

    #[inline]
    fn checked_resize_with<F: FnMut() -> T>(&mut self, len: usize, make: F) -> Result<()> {
        self.try_reserve(len.saturating_sub(self.len()))?;
        self.resize_with(len, make);
        Ok(())
    }

    #[inline]
    fn checked_extend_from_slice(&mut self, items: &[T]) -> Result<()>
    where
        T: Clone,
    {
        self.try_reserve(items.len())?;
        self.extend_from_slice(items);
        Ok(())
    }
}

/// Texts that grow.
pub trait GrowText: Sized {
    fn checked_reserve(&mut self, more: usize) -> Result<()>;
    fn checked_push(&mut self, letter: char) -> Result<()>;
    fn checked_push_str(&mut self, text: &str) -> Result<()>;
    fn checked_from_str(text: &str) -> Result<Self>;
}

impl GrowText for String {
    fn checked_reserve(&mut self, more: usize) -> Result<()> {
        Ok(self.try_reserve(more)?)
    }

    fn checked_push(&mut self, letter: char) -> Result<()> {
        self.try_reserve(letter.len_utf8())?;
        self.push(letter);
        Ok(())
    }

    fn checked_push_str(&mut self, text: &str) -> Result<()> {
        self.try_reserve(text.len())?;
        self.push_str(text);
        Ok(())
    }

    fn checked_from_str(text: &str) -> Result<String> {
        let mut made = String::checked_with_capacity(text.len())?;
        made.push_str(text);
        Ok(made)
    }
}

/// Values with a text.
pub trait ToText {
    fn checked_to_string(&self) -> Result<String>
    where
        Self: Display,
    {
        let mut writer = Writer(String::new());
        write!(writer, "{self}").map_err(|_| AllocError)?;
        Ok(writer.0)
    }
}

impl<T: ?Sized> ToText for T {}

/// New texts of texts.
pub trait Texts {
    fn checked_repeat(&self, count: usize) -> Result<String>;
    fn checked_replace(&self, old: &str, new: &str) -> Result<String>;
}

impl Texts for str {
    fn checked_repeat(&self, count: usize) -> Result<String> {
        let len = self.len().checked_mul(count).ok_or(AllocError)?;
        let mut made = String::checked_with_capacity(len)?;
        for _ in 0..count {
            made.push_str(self);
        }
        Ok(made)
    }

    fn checked_replace(&self, old: &str, new: &str) -> Result<String> {
        let mut made = String::new();
        for (count, part) in self.split(old).enumerate() {
            made.checked_push_str(if count == 0 { "" } else { new })?;
            made.checked_push_str(part)?;
        }
        Ok(made)
    }
}

struct Writer(String);

impl Write for Writer {
    fn write_str(&mut self, text: &str) -> fmt::Result {
        self.0.checked_push_str(text).map_err(|_| fmt::Error)
    }
}

/// Slices with a copy.
pub trait ToVec<T> {
    fn checked_to_vec(&self) -> Result<Vec<T>>;
}

impl<T: Clone> ToVec<T> for [T] {
    fn checked_to_vec(&self) -> Result<Vec<T>> {
        let mut made = Vec::checked_with_capacity(self.len())?;
        made.extend_from_slice(self);
        Ok(made)
    }
}

/// A vector of `len` clones. `vec!` aborts if memory is exhausted.
pub fn filled<T: Clone>(item: T, len: usize) -> Result<Vec<T>> {
    let mut made = Vec::checked_with_capacity(len)?;
    made.resize(len, item);
    Ok(made)
}
