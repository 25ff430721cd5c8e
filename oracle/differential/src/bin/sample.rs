//! sample FOLDER: stores runs of the Rust alone. runs.in has the operations and the records heard, runs.out what the
//! Rust sent and how it ended. A Rattle program replays runs.in and must print runs.out.
//!
//! runs.in consists of lines of hexadecimal. A run is a line with its operation, a line for each record (`00` before
//! its bytes, so that no line is empty), and an empty line.
//!
//! clients.in and clients.out are the same for several operations on one client, which the line `fresh` begins. There
//! the
//! link may fail (the line `01`), a reply may not be awaited, a refusal shows what it carries, and `r` is the unread
//! rest.
//! texts has texts with the ids that the Rust reads from them, and ids with the texts that it writes.

use std::fmt::Write;
use std::fs;
use std::path::{Path, PathBuf};

use differential::run::{End, Handed, Operation, Rust, Trace};
use differential::wire::{Info, Pod, Random, Wire, damaged, reply};
use tinyboot_protocol::crc::{CRC_INIT, crc16};

fn hex(bytes: &[u8]) -> String {
    bytes.iter().map(|b| format!("{b:02x}")).collect()
}

/// The operation's line: its code, then its arguments.
fn code(operation: &Operation) -> Vec<u8> {
    match operation {
        Operation::Select(prefix, bits) => [&[1, *bits as u8], &prefix[..]].concat(),
        Operation::Deselect => vec![2],
        Operation::Attach(None) => vec![3],
        Operation::Attach(Some(prefix)) => [&[4], &prefix[..]].concat(),
        Operation::Discover(prefix) => [&[5], &prefix[..]].concat(),
        Operation::Info => vec![6],
        Operation::Erase => vec![7],
        Operation::Flash(image) => [&[8], &image[..]].concat(),
        Operation::Reset(bootloader, in_boot) => vec![9, *bootloader as u8, *in_boot as u8],
        Operation::SetBaud(baud, bootloader, in_boot) => vec![10, *bootloader as u8, *in_boot as u8, *baud],
    }
}

/// Each request, how much of its record was read, and the progress; then the ids and the end, the seed and the attached
/// id.
fn shown(trace: &Trace, awaited: bool) -> String {
    let (mut out, handed) = (String::new(), &trace.handed);
    for (k, request) in trace.requests.iter().enumerate() {
        writeln!(out, "> {}", hex(request)).unwrap();
        let last = k + 1 == trace.requests.len();
        if !awaited || k == handed.len() {
            continue;
        }
        if !(last && matches!(trace.end, End::Refused(..))) {
            writeln!(out, "@ {:08x}", handed[k].read).unwrap();
        }
        for (done, total) in &handed[k].progress {
            writeln!(out, "% {done:08x} {total:08x}").unwrap();
        }
    }
    match &trace.end {
        End::Quiet => writeln!(out, "= 00000000").unwrap(),
        End::Heard(kind, id) => {
            let kind = ["nothing", "one", "unaddressed", "garble"][*kind as usize];
            let id = if kind == "one" { format!(" {}", hex(id)) } else { String::new() };
            writeln!(out, "= {kind}{id}").unwrap();
        }
        End::Found(ids) => {
            ids.iter().for_each(|id| writeln!(out, "i {}", hex(id)).unwrap());
            writeln!(out, "= found").unwrap();
        }
        End::Unaddressed => writeln!(out, "= 00000017").unwrap(),
        End::Knows(fields) => {
            let fields: Vec<String> = fields.iter().map(|n| format!("{n:08x}")).collect();
            writeln!(out, "= {}", fields.join(" ")).unwrap();
        }
        End::Refused(n, _) => writeln!(out, "= {n:08x}").unwrap(),
    }
    writeln!(out, "s {:08x} {}", trace.after.seed, hex(trace.after.attached.as_deref().unwrap_or(&[]))).unwrap();
    out
}

/// Whether a Verify was answered with fewer than two bytes: there the Rust reads bytes of an earlier frame, and the
/// port refuses with 18.
fn short_verify(trace: &Trace) -> bool {
    let verify = trace.requests.last().is_some_and(|r| r[1] == 3);
    let Some(last) = trace.handed.last() else { return false };
    let answer = &last.record[..last.read];
    verify && answer.len() >= 12 && answer[answer.len() - 12] == 0xA5
}

/// The operation and its records, as lines.
fn asked(operation: &Operation, handed: &[Handed]) -> String {
    let mut lines = hex(&code(operation)) + "\n";
    handed.iter().for_each(|h| writeln!(lines, "00{}", hex(&h.record)).unwrap());
    lines
}

/// Operations one after another on a client: each with its wire, and the request at which the link fails.
type Operations = Vec<(Operation, Wire, Option<usize>)>;

fn clients(folder: &Path, all: Vec<Operations>) {
    let (mut input, mut output) = (String::new(), String::new());
    for operations in all {
        let (mut rust, mut kept) = (Rust::new(), Vec::new());
        input += "fresh\n";
        for (operation, wire, fails_at) in operations {
            let awaited = !matches!(operation, Operation::Reset(_, false) | Operation::SetBaud(_, _, false));
            let trace = rust.run(&operation, wire, fails_at, &kept);
            input += &asked(&operation, if awaited { &trace.handed } else { &[] });
            input += if fails_at.is_some() { "01\n\n" } else { "\n" };
            output += &shown(&trace, awaited);
            kept = trace.rest;
            if let End::Refused(n, carries) = &trace.end {
                let carries: Vec<String> = carries.iter().map(|c| format!(" {c:08x}")).collect();
                writeln!(output, "c{}", carries.concat()).unwrap();
                if *n == 1 {
                    break;
                }
            }
            if awaited {
                writeln!(output, "r {}", hex(&kept)).unwrap();
            }
        }
    }
    fs::write(folder.join("clients.in"), input).unwrap();
    fs::write(folder.join("clients.out"), output).unwrap();
}

/// Texts, with the ids that they are read as, or `-`; ids, with the texts that they are written as. No text has a sign:
/// the Rust accepts one, and document 01 does not.
fn texts(folder: &Path) {
    let mut lines = String::new();
    for text in
        ["", "0", "00", "0f", "F0", "aA", "/0", "0:", "@0", "0G", "`0", "0g", "zz", "abc", "0001ff", "00zz", "zz00"]
            .map(String::from)
            .into_iter()
            .chain([15, 16, 17].map(|n| "5a".repeat(n)))
    {
        let read = reference::parse_uid(&text).map_or("-".into(), |id| format!("+{}", hex(&id)));
        writeln!(lines, "read {} {read}", hex(text.as_bytes())).unwrap();
    }
    for id in [vec![], vec![0], vec![0x9F, 0xA0], (0..16).map(|k| 17 * k).collect()] {
        writeln!(lines, "write +{} {}", hex(&id), hex(reference::uid_hex(&id).as_bytes())).unwrap();
    }
    fs::write(folder.join("texts"), lines).unwrap();
}

/// Records that contain a good reply, or nearly do.
fn readings(good: &[u8]) -> Vec<Vec<u8>> {
    let echo = reply(good[1], 0, &[]);
    vec![
        [&echo, good].concat(),
        [&damaged(echo.clone()), good].concat(),
        [&echo, &echo[..]].concat(),
        [good, good].concat(),
        [good, &[0xA5, 1]].concat(),
        [&[0, 1], good].concat(),
        [&[0xA5], good].concat(),
        damaged(good.to_vec()),
        good[..good.len() - 1].to_vec(),
        good[..9].to_vec(),
        vec![0xA5, good[1], 1, 0, 0, 0, 0, 0, 1, 4, 0, 0],
        reply(good[1], 3, &[]),
        reply(good[1], 7, &[1]),
    ]
}

/// Runs for cases that the others do not reach: each way to read a frame; each way to confirm an id; device information
/// that is refused, and images at their limits; the honest wires of document 01's examples, and long prefixes.
fn further(runs: &mut Vec<(Operation, Wire)>, info: Info) {
    for heard in readings(&reply(5, 1, &[1])) {
        for operation in [Operation::Select(vec![1, 0], 9), Operation::Attach(None), Operation::Attach(Some(vec![1]))] {
            runs.push((operation, Wire::Scripted(vec![heard.clone()])));
        }
    }
    for heard in readings(&reply(0, 1, &info.bytes())) {
        runs.push((Operation::Info, Wire::Scripted(vec![heard.clone()])));
    }
    let stem = vec![7; 14];
    let id = |end: &[u8]| reply(5, 1, &[&stem, end].concat());
    let same = id(&[1]);
    for (mine, other) in [
        (same.clone(), vec![]),
        (same.clone(), vec![0]),
        (same.clone(), same.clone()),
        (same.clone(), reply(5, 2, &[])),
        (vec![], vec![]),
        (id(&[3]), vec![]),
        (id(&[]), vec![]),
        (id(&[1, 0]), vec![]),
        (reply(5, 1, &[8]), vec![]),
        (reply(5, 1, &[]), vec![]),
        (reply(5, 2, &[]), vec![]),
        (vec![0], vec![]),
    ] {
        runs.push((Operation::Discover(stem.clone()), Wire::Scripted(vec![same.clone(), mine, other])));
    }
    runs.push((Operation::Discover(stem.clone()), Wire::Scripted(vec![vec![0], reply(5, 2, &[])])));
    for (prefix, ids) in [
        (vec![], vec![vec![0], vec![1]]),
        (vec![], vec![vec![1], vec![3]]),
        (vec![], vec![vec![0x7F], vec![0xFF]]),
        (vec![0], vec![vec![0], vec![1]]),
        (vec![7; 15], [0, 1, 3, 0x43, 0xC3].map(|b| [vec![7; 15], vec![b]].concat()).to_vec()),
        (vec![7; 16], vec![vec![7; 16], vec![8; 16]]),
        (vec![7; 16], vec![]),
    ] {
        runs.push((Operation::Discover(prefix), Wire::Honest(ids)));
    }
    let of_size = |erase_size| Info { erase_size, ..info }.bytes();
    for payload in
        [info.bytes()[..17].to_vec(), [info.bytes(), vec![9]].concat(), of_size(0), of_size(1), (1..19).collect()]
    {
        runs.push((Operation::Info, Wire::Pod(Pod::new(payload, 1))));
    }
    for (n, max_payload) in [(2, 1025), (1030, 65535), (1024, 1024), (1021, 1023)] {
        let info = Info { capacity: 1030, erase_size: 515, max_payload, ..info };
        runs.push((Operation::Flash(vec![n as u8; n]), Wire::Pod(Pod::new(info.bytes(), 1))));
    }
    for n in [2, 21] {
        runs.push((Operation::Flash(vec![1; n]), Wire::Pod(Pod::new(Info { compat: 5, ..info }.bytes(), 1))));
    }
    runs.push((Operation::Flash(vec![1; 5]), Wire::Pod(Pod { check: Some(vec![1, 2]), ..Pod::new(info.bytes(), 1) })));
    let check = [&crc16(CRC_INIT, &[1; 5]).to_le_bytes()[..], &[9]].concat();
    runs.push((Operation::Flash(vec![1; 5]), Wire::Pod(Pod { check: Some(check), ..Pod::new(info.bytes(), 1) })));
    // At one point in this image the check's register is 8000.
    runs.push((Operation::Flash(vec![0xFF, 0x7F]), Wire::Pod(Pod::new(info.bytes(), 1))));
    let small = Info { capacity: 4, erase_size: 4, ..info };
    runs.push((
        Operation::Flash(vec![1]),
        Wire::Scripted(vec![reply(0, 1, &small.bytes()), reply(1, 1, &[]), reply(2, 7, &[])]),
    ));
    for info in [small, Info { capacity: 0xFFFF_FFFF, erase_size: 0xFFFF, ..info }] {
        runs.push((Operation::Erase, Wire::Scripted(vec![reply(0, 1, &info.bytes()), reply(1, 3, &[])])));
    }
}

/// Clients with several operations: an id that is attached, kept and cleared; unread rests that are carried on; what
/// each refusal carries; links that fail.
fn several(info: Info) -> Vec<Operations> {
    let said = |records: &[Vec<u8>]| Wire::Scripted(records.to_vec());
    let pod = |info: Info| Wire::Pod(Pod::new(info.bytes(), 1));
    let one = reply(5, 1, &[1, 2]);
    let attach = (Operation::Attach(None), said(&[one.clone()]), None);
    let image = vec![1, 2, 3, 4, 5, 6];
    let good = reply(0, 1, &info.bytes());
    vec![
        vec![
            attach.clone(),
            (Operation::Info, said(&[[&good[..], &good].concat()]), None),
            (Operation::Info, said(&[vec![]]), None),
            (Operation::Reset(true, false), said(&[reply(4, 1, &[])]), None),
            (Operation::SetBaud(7, false, false), said(&[vec![]]), None),
            (Operation::Select(vec![1], 3), said(&[vec![]]), None),
            (Operation::Select(vec![1; 16], 128), said(&[vec![]]), None),
            (Operation::Discover(vec![1]), said(&[one.clone(), one.clone(), vec![], vec![]]), None),
            attach.clone(),
            (Operation::Discover(vec![1]), said(&[reply(5, 2, &[])]), None),
            (Operation::Attach(Some(vec![3, 4])), said(&[vec![]]), None),
            (Operation::Attach(Some(vec![3, 4])), said(&[vec![0], vec![]]), None),
            (Operation::Attach(None), said(&[vec![0], vec![]]), None),
            (Operation::Attach(Some(vec![3, 4])), said(&[reply(5, 2, &[])]), None),
            (Operation::Attach(None), said(&[reply(5, 2, &[])]), None),
            attach.clone(),
            (Operation::Deselect, said(&[one.clone()]), None),
        ],
        vec![
            attach.clone(),
            (Operation::Erase, said(&[[&good[..], &[0; 3]].concat(), reply(1, 9, &[])]), None),
            (Operation::Flash(vec![0; 21]), pod(info), None),
            (Operation::Flash(image.clone()), pod(Info { compat: 0x0403_0201, ..info }), None),
            (Operation::Flash(image.clone()), pod(Info { compat: 0x0403_0202, ..info }), None),
            (Operation::Flash(vec![1; 5]), pod(Info { compat: 0x0403_0202, ..info }), None),
            (
                Operation::Flash(image.clone()),
                Wire::Pod(Pod { check: Some(vec![1, 2, 3]), ..Pod::new(info.bytes(), 1) }),
                None,
            ),
            (Operation::Flash(image.clone()), Wire::Pod(Pod { refuses: 16, ..Pod::new(info.bytes(), 1) }), None),
            (Operation::Info, pod(Info { max_payload: 3, ..info }), None),
            (Operation::Info, said(&[[good[..].to_vec(), damaged(good.clone())].concat()]), None),
            (Operation::Info, said(&[vec![]]), None),
            (Operation::Info, said(&[reply(0, 0, &[])]), None),
        ],
        vec![attach.clone(), (Operation::Info, said(&[]), Some(0))],
        vec![attach.clone(), (Operation::Deselect, said(&[]), Some(0))],
        vec![attach.clone(), (Operation::Discover(vec![]), said(&[vec![0], vec![]]), Some(2))],
        vec![attach, (Operation::Flash(image), pod(info), Some(3))],
    ]
}

fn main() {
    let folder = PathBuf::from(std::env::args().nth(1).expect("a folder"));
    let r = &mut Random::new(20);
    let info = Info { capacity: 20, erase_size: 6, compat: 0xFFFF_FFFF, max_payload: 8 };
    let mut runs: Vec<(Operation, Wire)> = vec![
        (Operation::Deselect, Wire::Scripted(vec![vec![9, 9]])),
        (Operation::Reset(true, true), Wire::Scripted(vec![reply(4, 1, &[])])),
        (Operation::Reset(false, true), Wire::Scripted(vec![reply(4, 2, &[])])),
        (Operation::SetBaud(0, true, true), Wire::Scripted(vec![damaged(reply(4, 0, &[]))])),
        (Operation::SetBaud(255, false, true), Wire::Scripted(vec![reply(4, 1, &[])])),
    ];
    for heard in [
        vec![],
        reply(5, 1, &[1]),
        reply(5, 1, &[]),
        reply(5, 2, &[]),
        reply(5, 7, &[]),
        vec![0],
        damaged(reply(5, 1, &[1])),
    ] {
        for operation in [
            Operation::Select(vec![0b1010_0101, 3], 11),
            Operation::Attach(None),
            Operation::Attach(Some(vec![])),
            Operation::Attach(Some(vec![1])),
            Operation::Discover(vec![]),
        ] {
            runs.push((operation, Wire::Scripted(vec![heard.clone(), vec![], heard.clone()])));
        }
    }
    for n in [0, 1, 2, 5, 20, 64] {
        for length in [1, 3, 16] {
            let mut ids: Vec<Vec<u8>> = (0..n).map(|_| r.bytes(length)).collect();
            ids.sort();
            ids.dedup();
            runs.push((Operation::Discover(vec![]), Wire::Honest(ids.clone())));
            if let Some(id) = ids.last() {
                runs.push((Operation::Discover(id[..length / 2].to_vec()), Wire::Honest(ids)));
            }
        }
    }
    for k in 0..6 {
        runs.push((Operation::Discover(vec![k; 15]), Wire::Adverse(Random::new(k as u64))));
    }
    for capacity in [0, 1, 5, 6, 7, 20] {
        for max_payload in [3, 4, 7, 64] {
            for n in [0, 1, 5, 6, 7, 20] {
                let info = Info { capacity, max_payload, ..info };
                runs.push((Operation::Flash(r.bytes(n)), Wire::Pod(Pod::new(info.bytes(), 1))));
            }
            let info = Info { capacity, max_payload, ..info };
            runs.push((Operation::Erase, Wire::Pod(Pod::new(info.bytes(), 1))));
            runs.push((Operation::Info, Wire::Pod(Pod::new(info.bytes(), 1))));
        }
    }
    let image = r.bytes(14);
    let key = u32::from_le_bytes(image[8..12].try_into().unwrap());
    for compat in [key, key ^ 1] {
        let info = Info { compat, ..info };
        runs.push((Operation::Flash(image.clone()), Wire::Pod(Pod::new(info.bytes(), 1))));
        runs.push((Operation::Flash(image[1..].to_vec()), Wire::Pod(Pod::new(info.bytes(), 1))));
    }
    for every in 0..40 {
        let mut pod = Pod::new(info.bytes(), every);
        pod.every = 4;
        pod.refuses = (every % 17) as u8;
        runs.push((Operation::Flash(image.clone()), Wire::Pod(pod)));
    }
    further(&mut runs, info);
    clients(&folder, several(info));
    texts(&folder);
    let (mut input, mut output) = (String::new(), String::new());
    let (mut stored, mut left_out) = (0, 0);
    for (operation, wire) in runs {
        let mut rust = Rust::new();
        let trace = rust.run(&operation, wire, None, &[]);
        if short_verify(&trace) {
            left_out += 1;
            continue;
        }
        stored += 1;
        input += &asked(&operation, &trace.handed);
        input += "\n";
        output += &shown(&trace, true);
    }
    fs::write(folder.join("runs.in"), input).unwrap();
    fs::write(folder.join("runs.out"), output).unwrap();
    println!(
        "{stored} runs of the Rust stored; skipped {left_out}: a Verify answered with under two bytes, \
         which the port refuses with 18"
    );
}
