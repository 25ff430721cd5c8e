//! Stands in for `embedded_io`: the traits of a byte stream, as far as the client uses them.

#[derive(Debug, Clone, Copy, PartialEq, Eq)]
pub enum ErrorKind {
    TimedOut,
    Other,
}

pub trait ErrorType {
    type Error: core::fmt::Debug;
}

pub trait Read: ErrorType {
    fn read(&mut self, buf: &mut [u8]) -> Result<usize, Self::Error>;
}

pub trait Write: ErrorType {
    fn write(&mut self, buf: &[u8]) -> Result<usize, Self::Error>;
    fn flush(&mut self) -> Result<(), Self::Error>;
}
