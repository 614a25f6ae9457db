//! What the machine's sources take of Rattle's library, over Rust's: an allocator is nothing, and a list asks
//! for room before it grows.

pub mod prelude {
    pub use crate::{CloneIn, CollectIn, Vec};
}

pub mod alloc {
    #[derive(Clone, Copy, Debug, Default, PartialEq, Eq)]
    pub struct Global;

    #[derive(Clone, Copy, Debug, PartialEq, Eq)]
    pub struct AllocError;
}

use alloc::{AllocError, Global};
use std::mem::MaybeUninit;
use std::ops::{Deref, DerefMut};

fn refused<E>(_error: E) -> AllocError {
    AllocError
}

#[derive(Clone, Debug, Default, PartialEq, Eq)]
pub struct Vec<T>(pub std::vec::Vec<T>);

impl<T> Vec<T> {
    pub fn new(_alloc: Global) -> Self {
        Vec(std::vec::Vec::new())
    }

    pub fn with_capacity(_alloc: Global, room: usize) -> Result<Self, AllocError> {
        let mut list = std::vec::Vec::new();
        list.try_reserve_exact(room).map_err(refused)?;
        Ok(Vec(list))
    }

    #[inline]
    pub fn reserve(&mut self, more: usize) -> Result<(), AllocError> {
        self.0.try_reserve(more).map_err(refused)
    }

    #[inline]
    pub fn push(&mut self, value: T) -> Result<(), AllocError> {
        self.reserve(1)?;
        self.0.push(value);
        Ok(())
    }

    #[inline]
    pub fn push_reserved(&mut self, value: T) {
        self.0.push(value);
    }

    #[inline]
    pub fn pop(&mut self) -> Option<T> {
        self.0.pop()
    }

    pub fn clear(&mut self) {
        self.0.clear();
    }

    #[inline]
    pub fn as_slice(&self) -> &[T] {
        &self.0
    }

    pub fn resize(&mut self, room: usize, value: T) -> Result<(), AllocError>
    where
        T: Clone,
    {
        self.0.try_reserve(room.saturating_sub(self.0.len())).map_err(refused)?;
        self.0.resize(room, value);
        Ok(())
    }

    pub fn extend_from_slice(&mut self, more: &[T]) -> Result<(), AllocError>
    where
        T: Clone,
    {
        self.reserve(more.len())?;
        self.0.extend_from_slice(more);
        Ok(())
    }
}

impl<T> Deref for Vec<T> {
    type Target = [T];

    #[inline]
    fn deref(&self) -> &[T] {
        &self.0
    }
}

impl<T> DerefMut for Vec<T> {
    #[inline]
    fn deref_mut(&mut self) -> &mut [T] {
        &mut self.0
    }
}

impl<T> IntoIterator for Vec<T> {
    type Item = T;
    type IntoIter = std::vec::IntoIter<T>;

    fn into_iter(self) -> Self::IntoIter {
        self.0.into_iter()
    }
}

impl<'a, T> IntoIterator for &'a Vec<T> {
    type Item = &'a T;
    type IntoIter = std::slice::Iter<'a, T>;

    fn into_iter(self) -> Self::IntoIter {
        self.0.iter()
    }
}

#[macro_export]
macro_rules! vec_in {
    ($alloc:expr; $value:expr; $count:expr) => {{
        let _ = $alloc;
        Ok::<$crate::Vec<_>, $crate::alloc::AllocError>($crate::Vec(vec![$value; $count]))
    }};
}

pub trait CollectIn: Iterator + Sized {
    fn collect_in(self, _alloc: Global) -> Result<Vec<Self::Item>, AllocError> {
        Ok(Vec(self.collect()))
    }
}

impl<I: Iterator> CollectIn for I {}

pub trait CloneIn<T> {
    fn to_vec(&self, alloc: Global) -> Result<Vec<T>, AllocError>;
}

impl<T: Clone> CloneIn<T> for Vec<T> {
    fn to_vec(&self, _alloc: Global) -> Result<Vec<T>, AllocError> {
        Ok(self.clone())
    }
}

#[derive(Clone, Debug)]
pub struct VecDeque<T>(std::collections::VecDeque<T>);

impl<T> VecDeque<T> {
    pub fn with_capacity(_alloc: Global, room: usize) -> Result<Self, AllocError> {
        let mut list = std::collections::VecDeque::new();
        list.try_reserve_exact(room).map_err(refused)?;
        Ok(VecDeque(list))
    }

    #[inline]
    pub fn push_back_reserved(&mut self, value: T) {
        self.0.push_back(value);
    }
}

impl<T> Deref for VecDeque<T> {
    type Target = std::collections::VecDeque<T>;

    #[inline]
    fn deref(&self) -> &Self::Target {
        &self.0
    }
}

impl<T> DerefMut for VecDeque<T> {
    #[inline]
    fn deref_mut(&mut self) -> &mut Self::Target {
        &mut self.0
    }
}

/// A list in place, as the crate arrayvec has it.
pub struct ArrayVec<T, const N: usize, A = ()> {
    slots: [MaybeUninit<T>; N],
    len: usize,
    alloc: std::marker::PhantomData<A>,
}

impl<T, const N: usize, A> ArrayVec<T, N, A> {
    pub fn new() -> Self {
        ArrayVec {
            slots: [const { MaybeUninit::uninit() }; N],
            len: 0,
            alloc: std::marker::PhantomData,
        }
    }

    pub fn new_in(_alloc: Global) -> Self {
        Self::new()
    }

    #[inline]
    pub fn as_slice(&self) -> &[T] {
        // SAFETY: the first `len` slots are written.
        unsafe { std::slice::from_raw_parts(self.slots.as_ptr().cast(), self.len) }
    }

    #[inline]
    pub fn is_full(&self) -> bool {
        self.len == N
    }

    #[inline]
    #[track_caller]
    pub fn push(&mut self, value: T) {
        self.slots[self.len].write(value);
        self.len += 1;
    }

    #[inline]
    pub fn pop(&mut self) -> Option<T> {
        if self.len == 0 {
            return None;
        }
        self.len -= 1;
        // SAFETY: the slot was written, and is given up.
        Some(unsafe { self.slots[self.len].assume_init_read() })
    }

    pub fn remove(&mut self, index: usize) -> T {
        assert!(index < self.len);
        // SAFETY: all of these slots were written, and the last one is given up.
        unsafe {
            let value = self.slots[index].assume_init_read();
            let at = self.slots.as_mut_ptr().add(index);
            std::ptr::copy(at.add(1), at, self.len - index - 1);
            self.len -= 1;
            value
        }
    }

    pub fn retain(&mut self, mut keep: impl FnMut(&mut T) -> bool) {
        let mut index = 0;
        while index < self.len {
            if keep(&mut self[index]) {
                index += 1;
            } else {
                self.remove(index);
            }
        }
    }
}

impl<T, const N: usize, A> Drop for ArrayVec<T, N, A> {
    fn drop(&mut self) {
        while self.pop().is_some() {}
    }
}

impl<T: Clone, const N: usize, A> Clone for ArrayVec<T, N, A> {
    fn clone(&self) -> Self {
        let mut copy = Self::new();
        for value in self.iter() {
            copy.push(value.clone());
        }
        copy
    }
}

impl<T, const N: usize, A> Deref for ArrayVec<T, N, A> {
    type Target = [T];

    #[inline]
    fn deref(&self) -> &[T] {
        self.as_slice()
    }
}

impl<T, const N: usize, A> DerefMut for ArrayVec<T, N, A> {
    #[inline]
    fn deref_mut(&mut self) -> &mut [T] {
        // SAFETY: the first `len` slots are written.
        unsafe { std::slice::from_raw_parts_mut(self.slots.as_mut_ptr().cast(), self.len) }
    }
}

/// Counts for contracts alone, which are nothing here.
pub mod ledger {
    use std::marker::PhantomData;

    pub trait Ledger {}

    pub struct Brand;

    impl Ledger for Brand {}

    pub struct Blank;

    pub struct Book<L>(PhantomData<L>);

    pub struct Share<L>(PhantomData<L>);

    impl Blank {
        #[inline]
        pub fn new(_parts: u64) -> Blank {
            Blank
        }

        #[inline]
        pub fn open<L: Ledger>(self) -> (Book<L>, Share<L>) {
            (Book(PhantomData), Share(PhantomData))
        }
    }

    impl<L: Ledger> Book<L> {
        #[inline]
        pub fn add(&mut self, _share: &mut Share<L>, _more: u64) {}
    }
}

pub mod bitflags {
    pub struct Flag<T> {
        pub name: &'static str,
        pub value: T,
    }

    pub trait Flags: Sized + Copy {
        type Bits: Copy + std::ops::BitAnd<Output = Self::Bits> + PartialEq;

        fn flags<'a>() -> &'a [Flag<Self>];
        fn bits(&self) -> Self::Bits;
        fn from_bits_retain(bits: Self::Bits) -> Self;

        #[inline]
        fn contains(&self, other: Self) -> bool {
            self.bits() & other.bits() == other.bits()
        }
    }

    #[macro_export]
    macro_rules! bitflag_items {
        (impl $of:ident: $bits:ident { $(const $name:ident = $value:expr;)* }) => {
            impl $of {
                $(pub const $name: $of = $of($value);)*
                const FLAGS: &'static [Flag<$of>] = &[$(Flag { name: stringify!($name), value: $of($value) }),*];
            }
        };
    }

    pub use crate::bitflag_items;
}

pub mod byteorder {
    pub struct LittleEndian;

    pub trait ByteOrder {
        fn read_u16(bytes: &[u8]) -> u16;
        fn read_u32(bytes: &[u8]) -> u32;
    }

    impl ByteOrder for LittleEndian {
        #[inline]
        fn read_u16(bytes: &[u8]) -> u16 {
            u16::from_le_bytes([bytes[0], bytes[1]])
        }

        #[inline]
        fn read_u32(bytes: &[u8]) -> u32 {
            u32::from_le_bytes([bytes[0], bytes[1], bytes[2], bytes[3]])
        }
    }
}
