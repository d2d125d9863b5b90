use std::ops::{Deref, DerefMut};
#[derive(Clone, Copy, Debug)] pub struct Global;
#[derive(Clone, Copy, Debug)] pub struct AllocError;
pub struct AllocFailed<T>(pub T);
pub struct Vec<T>(std::vec::Vec<T>);
impl<T> Vec<T> {
    pub fn new(_: Global) -> Vec<T> { Vec(std::vec::Vec::new()) }
    pub fn push(&mut self, x: T) -> Result<(), AllocError> { self.0.push(x); Ok(()) }
    pub fn pop(&mut self) -> Option<T> { self.0.pop() }
    pub fn clear(&mut self) { self.0.clear() }
    pub fn truncate(&mut self, n: usize) { self.0.truncate(n) }
    pub fn remove(&mut self, n: usize) -> T { self.0.remove(n) }
    pub fn as_slice(&self) -> &[T] { &self.0 }
    pub fn from_std(v: std::vec::Vec<T>) -> Vec<T> { Vec(v) }
}
impl<T> Deref for Vec<T> { type Target = [T]; fn deref(&self) -> &[T] { &self.0 } }
impl<T> DerefMut for Vec<T> { fn deref_mut(&mut self) -> &mut [T] { &mut self.0 } }
impl<'a, T> IntoIterator for &'a Vec<T> { type Item = &'a T; type IntoIter = std::slice::Iter<'a, T>; fn into_iter(self) -> Self::IntoIter { self.0.iter() } }
impl<T> IntoIterator for Vec<T> { type Item = T; type IntoIter = std::vec::IntoIter<T>; fn into_iter(self) -> Self::IntoIter { self.0.into_iter() } }
pub struct String(std::string::String);
impl String {
    pub fn new(_: Global) -> String { String(std::string::String::new()) }
    pub fn push_str(&mut self, s: &str) -> Result<(), AllocError> { self.0.push_str(s); Ok(()) }
}
impl Deref for String { type Target = str; fn deref(&self) -> &str { &self.0 } }
