//! differential [RUNS [SEED]]: compares the port with the Rust on the exhaustive kinds, on far addresses, on RUNS
//! seeded runs, and on leaf calls.

use differential::kinds;

fn main() {
    let mut args = std::env::args().skip(1).map(|a| a.parse::<u64>().expect("a number"));
    let runs = args.next().unwrap_or(20_000);
    let seed = args.next().unwrap_or(1);
    let judge = kinds::all(seed, runs as usize);
    for bad in judge.bad.iter().take(3) {
        println!("{bad}");
    }
    let met: Vec<String> =
        (1..24).filter(|&n| judge.refusals[n] > 0).map(|n| format!("{n}: {}", judge.refusals[n])).collect();
    println!("refusals met: {}", met.join(", "));
    let reach = &judge.reach;
    println!("the longest discovery: {} Selects; the longest list of Erases: {}", reach.selects, reach.erases);
    println!("the largest image: {} bytes; the largest capacity: {}", reach.image, reach.capacity);
    for (name, a) in [("Erases", &reach.erase), ("Writes", &reach.write)] {
        let [far, farther] = a.beyond;
        println!("{name}: {far} at addresses beyond 2^16, {farther} beyond 2^24, the largest {}", a.largest);
    }
    println!(
        "seed {seed}: {} runs of both sides, {} of the port alone, {} leaf calls",
        judge.both, judge.alone, judge.leaves
    );
    println!("{} disagreements", judge.bad.len());
    std::process::exit((!judge.bad.is_empty()) as i32);
}
