//! The library, called as C calls it.

#[cfg(feature = "archive")]
mod linked;
#[cfg(feature = "archive")]
pub mod maps;
#[cfg(feature = "archive")]
pub use linked::Lent;

/// Whether the library is there
pub const LINKED: bool = cfg!(feature = "archive");

/// Where the library isn't linked, nothing is ever lent to it
#[cfg(not(feature = "archive"))]
pub enum Lent {}

#[cfg(not(feature = "archive"))]
impl Lent {
    pub fn of(_: &crate::case::Case) -> Option<Self> { None }
    pub fn call(&mut self, _: &crate::case::Case) -> u64 { match *self {} }
    pub fn ready<'a>(&'a mut self, _: &'a crate::case::Case) -> Box<dyn FnMut() -> u64 + 'a> { match *self {} }
    pub fn outcome(self, _: &crate::case::Case, _: u64) -> crate::case::Outcome { match self {} }
}

#[cfg(not(feature = "archive"))]
pub mod maps {
    type Lent<'a> = (&'a [u64], &'a [i64]);
    type Room<'a> = (&'a mut [u64], &'a mut [i64]);
    pub fn cut(_: Lent, _: u64, _: u64, _: Room) -> Result<usize, u64> { Err(0) }
    pub fn cuts(_: Lent, _: &[u64], _: Room, _: &mut [u64]) -> Result<usize, u64> { Err(0) }
    pub fn join(_: Lent, _: Lent, _: Room) -> Result<usize, u64> { Err(0) }
    pub fn merge(_: Lent, _: Room) -> Result<usize, u64> { Err(0) }
}
