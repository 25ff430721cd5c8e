//! The Rust that was ported, unchanged.
#![allow(clippy::all)]

include!(env!("CLIENT_RS"));

/// Private parts of `client.rs`, for the comparison.
pub mod inner {
    pub fn hear(bytes: &[u8]) -> super::Heard {
        super::hear(bytes)
    }

    /// The ids that the walk under a prefix keeps until it ends, with or without success.
    pub fn kept<T: super::Link>(client: &mut super::Client<T>, prefix: &[u8]) -> Vec<Vec<u8>> {
        let mut ids = Vec::new();
        let _ = client.walk(&mut super::bits_of(prefix), &mut ids, None);
        ids
    }

    pub fn seed<T: super::Link>(client: &super::Client<T>) -> u8 {
        client.seed
    }
}
