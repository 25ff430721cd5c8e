//! profile [ROUNDS]: runs discoveries of 64 pods on the port alone, for a profiler.

use bench::{ours, records};
use differential::run::Operation;
use differential::wire::{Random, Wire};
use fahireky::Client;

fn main() {
    let r = &mut Random::new(1);
    let wire = Wire::Honest((0..64).map(|_| r.bytes(16)).collect());
    let records = records(&Operation::Discover(vec![]), &wire);
    let rounds = std::env::args().nth(1).map_or(3000, |n| n.parse().unwrap());
    let mut buffer = [0; fahireky::REQUEST];
    for _ in 0..rounds {
        let mut client = Client::new();
        client.start_discover(&[]).unwrap();
        std::hint::black_box(ours(&mut client, &[], &records, &mut buffer));
    }
}
