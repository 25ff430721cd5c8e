//! Measures both sides in one process on the same records: the best time of several rounds, and the port's as a ratio
//! to the Rust's.

use std::fs::{self, File};
use std::hint::black_box;
use std::mem::{MaybeUninit, size_of};
use std::path::Path;
use std::process::{Command, Stdio};
use std::time::Instant;

use bench::{Raw, ours, records, rust_client};
use differential::run::Operation;
use differential::wire::{Info, Pod, Random, Wire, reply};
use fahireky::Client;

/// The best time of each side over several rounds, in nanoseconds per unit. The sides take turns.
fn best<const N: usize>(units: usize, mut sides: [&mut dyn FnMut(); N]) -> [f64; N] {
    let mut times = [f64::MAX; N];
    // As many rounds as fit in half a second, at least five.
    let start = Instant::now();
    let mut rounds = 0;
    while rounds < 5 || start.elapsed().as_millis() < 500 {
        for (side, time) in sides.iter_mut().zip(&mut times) {
            let t = Instant::now();
            side();
            *time = time.min(t.elapsed().as_nanos() as f64);
        }
        rounds += 1;
    }
    times.map(|t| t / units as f64)
}

/// A row: the Rust, the exported calls, the Rust crate over them.
fn three(name: &str, unit: &str, [rust, raw, port]: [f64; 3]) {
    println!("| {name} | {unit} | {rust:.1} | {raw:.1} | {port:.1} | {:.2} | {:.2} |", raw / rust, port / rust);
}

/// A row: the Rust, and the port.
fn two(name: &str, unit: &str, [rust, port]: [f64; 2]) {
    println!("| {name} | {unit} | {rust:.1} | | {port:.1} | | {:.2} |", port / rust);
}

fn speed(name: &str, bytes: usize, [rust, port]: [f64; 2]) {
    let mb = |ns: f64| bytes as f64 / ns * 1000.0;
    println!("| {name} | MB/s | {:.0} | | {:.0} | | {:.2} |", mb(rust), mb(port), port / rust);
}

fn discovery(name: &str, prefix: &[u8], wire: Wire) {
    let records = records(&Operation::Discover(prefix.to_vec()), &wire);
    let (mut raw, mut buffer) = (Raw::new(), [0; fahireky::REQUEST]);
    let measured = best(
        records.len(),
        [
            &mut || {
                black_box(rust_client(&records).discover(prefix)).ok();
            },
            &mut || {
                raw.start_discover(prefix);
                black_box(raw.run(&[], &records));
            },
            &mut || {
                let mut client = Client::new();
                client.start_discover(prefix).unwrap();
                black_box(ours(&mut client, &[], &records, &mut buffer));
            },
        ],
    );
    three(&format!("{name} ({} Selects)", records.len()), "ns a Select", measured);
}

fn flash(name: &str, n: usize) {
    let image = Random::new(n as u64).bytes(n);
    let info = Info { capacity: n as u32, erase_size: 1024, compat: 0xFFFF_FFFF, max_payload: 1024 };
    let wire = Wire::Pod(Pod::new(info.bytes(), 1));
    let records = records(&Operation::Flash(image.clone()), &wire);
    let (mut raw, mut buffer) = (Raw::new(), [0; fahireky::REQUEST]);
    let measured = best(
        1000,
        [
            &mut || {
                black_box(rust_client(&records).flash(&image, &mut |_, _, _| {})).unwrap();
            },
            &mut || {
                raw.start_flash(&image);
                black_box(raw.run(&image, &records));
            },
            &mut || {
                let mut client = Client::new();
                client.start_flash(&image).unwrap();
                black_box(ours(&mut client, &image, &records, &mut buffer));
            },
        ],
    );
    three(&format!("{name} ({} requests)", records.len()), "us", measured);
}

/// A noisy record of 4 KiB: requests and replies of many lengths, then stray bytes.
fn noisy(r: &mut Random) -> Vec<u8> {
    let mut bytes = Vec::new();
    while bytes.len() < 4000 {
        let n = r.below(40);
        bytes.extend(reply(5, (bytes.len() % 2) as u8, &r.bytes(n)));
    }
    bytes.resize(4096, 0x11);
    bytes
}

/// The bench log program, and the same program over the Rust, as whole processes on the same log.
fn bench_log() {
    let port = Path::new(env!("CARGO_MANIFEST_DIR")).join("../../crates/bench_log/out/bench_log");
    let rust = std::env::current_exe().unwrap().with_file_name("rust_log");
    if !port.exists() || !rust.exists() {
        println!("| the bench log program | | not built | | not built | | |");
        return;
    }
    let ids = (0..64).map(|i| [vec![i as u8], vec![0; 15]].concat()).collect();
    let records = records(&Operation::Discover(vec![]), &Wire::Stubborn(ids, Default::default()));
    let mut log = String::from("01\n");
    for record in &records {
        log.extend(record.iter().map(|b| format!("{b:02x}")));
        log += if record.is_empty() { "\n" } else { "\n\n" };
    }
    let file = std::env::temp_dir().join("bench_log.in");
    fs::write(&file, &log).unwrap();
    let run = |program: &Path| {
        let status = Command::new(program).stdin(File::open(&file).unwrap()).stdout(Stdio::null()).status();
        assert!(status.unwrap().success());
    };
    let measured = best(1_000_000, [&mut || run(&rust), &mut || run(&port)]);
    fs::remove_file(&file).unwrap();
    two(&format!("the bench log program ({} Selects, {} bytes)", records.len(), log.len()), "ms", measured);
}

const PAINTED: usize = 1 << 18;

#[inline(never)]
fn paint() {
    let mut room = MaybeUninit::<[u8; PAINTED]>::uninit();
    for i in 0..PAINTED {
        // SAFETY: within the array.
        unsafe { room.as_mut_ptr().cast::<u8>().add(i).write_volatile(0xC7) };
    }
    black_box(&mut room);
}

#[inline(never)]
fn used() -> usize {
    let room = MaybeUninit::<[u8; PAINTED]>::uninit();
    let room = black_box(&room);
    // SAFETY: any bits are a valid u8; the bytes are what earlier stack frames left there.
    let painted = |i: usize| unsafe { room.as_ptr().cast::<u8>().add(i).read_volatile() } == 0xC7;
    // A stack probe writes one word on each page. A block with more changed bytes than that was used.
    (0..PAINTED)
        .step_by(64)
        .find(|&at| (at..at + 64).filter(|&i| !painted(i)).count() > 16)
        .map_or(0, |at| PAINTED - at)
}

/// How much stack a call uses, in a thread of its own. The call is hidden from the compiler, so that it is not inlined.
fn stack(mut call: impl FnMut() + Send) -> usize {
    std::thread::scope(|s| {
        std::thread::Builder::new()
            .stack_size(4 << 20)
            .spawn_scoped(s, || {
                let call: &mut dyn FnMut() = black_box(&mut call);
                paint();
                call();
                used()
            })
            .unwrap()
            .join()
            .unwrap()
    })
}

fn main() {
    let r = &mut Random::new(1);
    println!("| what | unit | Rust | calls | crate | calls / Rust | crate / Rust |");
    println!("|---|---|---|---|---|---|---|");
    for length in [8, 16] {
        for n in [1, 8, 64] {
            let ids = (0..n).map(|_| r.bytes(length)).collect();
            discovery(&format!("discovery, {n} pods, ids of {length}"), &[], Wire::Honest(ids));
        }
    }
    discovery(
        "discovery, garble down to 128 bits",
        &[],
        Wire::Scripted([vec![vec![0x55]; 128], vec![vec![]; 129]].concat()),
    );
    let adverse = (0..100)
        .map(|seed| Wire::Adverse(Random::new(seed)))
        .map(|wire| (records(&Operation::Discover(vec![0; 14]), &wire).len(), wire))
        .max_by_key(|x| x.0)
        .unwrap()
        .1;
    discovery("discovery, adverse, under 14 bytes", &[0; 14], adverse);
    let record = noisy(r);
    let clean: Vec<u8> = (0..100).flat_map(|_| reply(5, 0, &[7; 28])).collect();
    speed(
        "hear, a noisy record of 4 KiB",
        record.len(),
        best(
            1,
            [&mut || drop(black_box(reference::inner::hear(&record))), &mut || {
                let _ = black_box(fahireky::hear(&record));
            }],
        ),
    );
    speed(
        "hear, echoes of 4,000 bytes",
        clean.len(),
        best(
            1,
            [&mut || drop(black_box(reference::inner::hear(&clean))), &mut || {
                let _ = black_box(fahireky::hear(&clean));
            }],
        ),
    );
    let bytes = r.bytes(1 << 16);
    speed(
        "the check, 64 KiB",
        bytes.len(),
        best(
            1,
            [
                &mut || {
                    black_box(tinyboot_protocol::crc::crc16(0xFFFF, &bytes));
                },
                &mut || {
                    black_box(fahireky::crc16(0xFFFF, &bytes));
                },
            ],
        ),
    );
    flash("flash of 64 KiB", 1 << 16);
    flash("flash of 1 MiB", 1 << 20);
    bench_log();

    println!();
    println!("| memory | Rust | calls | crate |");
    println!("|---|---|---|---|");
    println!(
        "| size of a client, bytes | {} and its heap | {} | {} |",
        size_of::<reference::Client<bench::Stored>>(),
        fahireky::STATE,
        size_of::<Client>()
    );
    let wire = Wire::Honest((0..64).map(|_| r.bytes(16)).collect());
    let found = records(&Operation::Discover(vec![]), &wire);
    let image = r.bytes(1 << 16);
    let info = Info { capacity: 1 << 16, erase_size: 1024, compat: 0xFFFF_FFFF, max_payload: 1024 };
    let told = records(&Operation::Flash(image.clone()), &Wire::Pod(Pod::new(info.bytes(), 1)));
    // The clients and the lent buffers are on the heap, so that only the stack of the calls is counted.
    let mut rust = (Box::new(rust_client(&found)), Box::new(rust_client(&told)));
    let (mut raw, mut client, mut buffer) =
        (Box::new(Raw::new()), Box::new(Client::new()), Box::new([0; fahireky::REQUEST]));
    let a = stack(|| drop(black_box(rust.0.discover(&[]))));
    let b = stack(|| {
        raw.start_discover(&[]);
        black_box(raw.run(&[], &found));
    });
    let c = stack(|| {
        client.start_discover(&[]).unwrap();
        black_box(ours(&mut client, &[], &found, &mut buffer));
    });
    println!("| stack of a discovery of 64 pods, bytes | {a} | {b} | {c} |");
    let a = stack(|| drop(black_box(rust.1.flash(&image, &mut |_, _, _| {}))));
    let b = stack(|| {
        raw.start_flash(&image);
        black_box(raw.run(&image, &told));
    });
    let c = stack(|| {
        client.start_flash(&image).unwrap();
        black_box(ours(&mut client, &image, &told, &mut buffer));
    });
    println!("| stack of a flash of 64 KiB, bytes | {a} | {b} | {c} |");
}
