//! The part of Rattle's standard library that differs from Rust's, over Rust's: memory is asked for by name, and refusals are
//! answers. Here nothing is ever refused.
use std::ops::{Deref, DerefMut};
#[derive(Clone, Copy, Debug, PartialEq, Eq)]
pub struct AllocError;
#[derive(Clone, Copy, Debug)]
pub struct Global;
#[derive(Debug)]
pub struct AllocFailed<T>(pub T);
impl<T> From<AllocFailed<T>> for AllocError { fn from(_: AllocFailed<T>) -> Self { AllocError } }
#[derive(Debug, PartialEq, Eq)]
pub struct Vec<T>(pub std::vec::Vec<T>);
impl<T> Vec<T> {
    pub fn new(_: Global) -> Self { Vec(std::vec::Vec::new()) }
    pub fn with_capacity(_: Global, n: usize) -> Result<Self, AllocError> { Ok(Vec(std::vec::Vec::with_capacity(n))) }
    pub fn push(&mut self, x: T) -> Result<(), AllocFailed<T>> { self.0.push(x); Ok(()) }
    pub fn push_reserved(&mut self, x: T) { self.0.push(x) }
    pub fn reserve(&mut self, n: usize) -> Result<(), AllocError> { self.0.reserve(n); Ok(()) }
    pub fn pop(&mut self) -> Option<T> { self.0.pop() }
    pub fn clear(&mut self) { self.0.clear() }
    pub fn truncate(&mut self, n: usize) { self.0.truncate(n) }
    pub fn swap_remove(&mut self, i: usize) -> T { self.0.swap_remove(i) }
    pub fn len(&self) -> usize { self.0.len() }
    pub fn capacity(&self) -> usize { self.0.capacity() }
}
impl<T: Clone> Vec<T> {
    pub fn from_slice(_: Global, s: &[T]) -> Result<Self, AllocError> { Ok(Vec(s.to_vec())) }
    pub fn extend_from_slice(&mut self, s: &[T]) -> Result<(), AllocError> { self.0.extend_from_slice(s); Ok(()) }
    pub fn resize(&mut self, n: usize, x: T) -> Result<(), AllocError> { self.0.resize(n, x); Ok(()) }
}
impl<T> Deref for Vec<T> { type Target = [T]; fn deref(&self) -> &[T] { &self.0 } }
impl<T> DerefMut for Vec<T> { fn deref_mut(&mut self) -> &mut [T] { &mut self.0 } }
impl<T> IntoIterator for Vec<T> { type Item = T; type IntoIter = std::vec::IntoIter<T>; fn into_iter(self) -> Self::IntoIter { self.0.into_iter() } }
impl<'a, T> IntoIterator for &'a Vec<T> { type Item = &'a T; type IntoIter = std::slice::Iter<'a, T>; fn into_iter(self) -> Self::IntoIter { self.0.iter() } }
impl<'a, T> IntoIterator for &'a mut Vec<T> { type Item = &'a mut T; type IntoIter = std::slice::IterMut<'a, T>; fn into_iter(self) -> Self::IntoIter { self.0.iter_mut() } }
pub fn filled<T: Clone>(x: T, n: usize) -> Result<Vec<T>, AllocError> { Ok(Vec(vec![x; n])) }
pub fn listed<T>(v: std::vec::Vec<T>) -> Result<Vec<T>, AllocError> { Ok(Vec(v)) }
#[derive(Debug, PartialEq, Eq)]
pub struct String(pub std::string::String);
impl String {
    pub fn new(_: Global) -> Self { String(std::string::String::new()) }
    pub fn from_str(_: Global, s: &str) -> Result<Self, AllocError> { Ok(String(s.to_string())) }
    pub fn push(&mut self, c: char) -> Result<(), AllocError> { self.0.push(c); Ok(()) }
    pub fn push_str(&mut self, s: &str) -> Result<(), AllocError> { self.0.push_str(s); Ok(()) }
    pub fn as_str(&self) -> &str { &self.0 }
    pub fn as_bytes(&self) -> &[u8] { self.0.as_bytes() }
    pub fn clear(&mut self) { self.0.clear() }
}
impl Deref for String { type Target = str; fn deref(&self) -> &str { &self.0 } }
pub fn text(s: std::string::String) -> Result<String, AllocError> { Ok(String(s)) }
pub trait Gather: Iterator + Sized { fn collect_in(self, _: Global) -> Result<Vec<Self::Item>, AllocError> { Ok(Vec(self.collect())) } }
impl<I: Iterator> Gather for I {}
impl String { pub fn write_fmt(&mut self, a: std::fmt::Arguments) -> Result<(), AllocError> { std::fmt::Write::write_fmt(&mut self.0, a).unwrap(); Ok(()) } pub fn into_bytes(self) -> Vec<u8> { Vec(self.0.into_bytes()) } }
impl Vec<u8> { pub fn write_fmt(&mut self, a: std::fmt::Arguments) -> Result<(), AllocError> { std::io::Write::write_fmt(&mut self.0, a).unwrap(); Ok(()) } }
impl<T> Vec<T> { pub fn allocator(&self) -> &Global { &Global } pub fn as_slice(&self) -> &[T] { &self.0 } pub fn as_mut_slice(&mut self) -> &mut [T] { &mut self.0 } }
impl<T: Clone> Vec<T> { pub fn clone(&self) -> Result<Vec<T>, AllocError> { Ok(Vec(self.0.clone())) } }
impl<T> Vec<T> { pub fn reserve_exact(&mut self, n: usize) -> Result<(), AllocError> { self.0.reserve_exact(n); Ok(()) } }
/// Counts the calls of a part of the work, and its time, apart from the rest. One thread alone may call it.
pub fn timed<R>(work: impl FnOnce() -> R) -> R {
    let start = std::time::Instant::now();
    let done = work();
    CALLS.fetch_add(1, std::sync::atomic::Ordering::Relaxed);
    NANOSECONDS.fetch_add(start.elapsed().as_nanos() as u64, std::sync::atomic::Ordering::Relaxed);
    done
}
pub static CALLS: std::sync::atomic::AtomicU64 = std::sync::atomic::AtomicU64::new(0);
pub static NANOSECONDS: std::sync::atomic::AtomicU64 = std::sync::atomic::AtomicU64::new(0);
