// Stand-in for the crate oxc_index: a vector indexed by a number type of its
// own, with the few operations that the given files use.

use std::{
  marker::PhantomData,
  ops::{Index, IndexMut},
};

pub trait Idx: Copy {
  fn from_usize(index: usize) -> Self;
  fn index(self) -> usize;
}

#[macro_export]
macro_rules! define_index_type {
  ($visibility:vis struct $name:ident = $number:ty;) => {
    #[derive(Debug, Clone, Copy, PartialEq, Eq)]
    $visibility struct $name($number);

    impl $crate::Idx for $name {
      fn from_usize(index: usize) -> Self {
        Self(<$number>::try_from(index).unwrap())
      }

      fn index(self) -> usize {
        self.0 as usize
      }
    }
  };
}

#[derive(Debug, Clone)]
pub struct IndexVec<I: Idx, T> {
  items: Vec<T>,
  index: PhantomData<I>,
}

impl<I: Idx, T> IndexVec<I, T> {
  pub fn with_capacity(capacity: usize) -> Self {
    Self { items: Vec::with_capacity(capacity), index: PhantomData }
  }

  pub fn push(&mut self, item: T) -> I {
    self.items.push(item);
    I::from_usize(self.items.len() - 1)
  }

  pub fn len(&self) -> usize {
    self.items.len()
  }

  pub fn is_empty(&self) -> bool {
    self.items.is_empty()
  }
}

impl<I: Idx, T> Index<I> for IndexVec<I, T> {
  type Output = T;

  fn index(&self, index: I) -> &T {
    &self.items[index.index()]
  }
}

impl<I: Idx, T> IndexMut<I> for IndexVec<I, T> {
  fn index_mut(&mut self, index: I) -> &mut T {
    &mut self.items[index.index()]
  }
}
