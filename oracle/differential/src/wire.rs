//! Wires: the record of each request, as a function of the requests so far. A wire is cloned, so that both sides get
//! the same one.

use std::collections::HashSet;

use tinyboot_protocol::crc::{CRC_INIT, crc16};

/// xorshift64*: a seed gives the same runs on every machine.
#[derive(Clone)]
pub struct Random(u64);

impl Random {
    pub fn new(seed: u64) -> Random {
        let mut r = Random(seed.wrapping_mul(0x9E37_79B9_7F4A_7C15) | 1);
        for _ in 0..4 {
            r.next();
        }
        r
    }

    pub fn next(&mut self) -> u64 {
        self.0 ^= self.0 >> 12;
        self.0 ^= self.0 << 25;
        self.0 ^= self.0 >> 27;
        self.0.wrapping_mul(0x2545_F491_4F6C_DD1D)
    }

    /// A number below n.
    pub fn below(&mut self, n: usize) -> usize {
        ((self.next() >> 32) as usize * n) >> 32
    }

    pub fn one_in(&mut self, n: usize) -> bool {
        self.below(n) == 0
    }

    pub fn byte(&mut self) -> u8 {
        (self.next() >> 56) as u8
    }

    pub fn bytes(&mut self, n: usize) -> Vec<u8> {
        (0..n).map(|_| self.byte()).collect()
    }

    pub fn pick<'a, T>(&mut self, all: &'a [T]) -> &'a T {
        &all[self.below(all.len())]
    }
}

/// A frame: "the check covers bytes 1 up to the end of the payload".
pub fn frame(command: u8, status: u8, flags: u8, address: u32, payload: &[u8]) -> Vec<u8> {
    let mut bytes = vec![0xA5, command, status, flags];
    bytes.extend(address.to_le_bytes());
    bytes.extend((payload.len() as u16).to_le_bytes());
    bytes.extend(payload);
    let check = crc16(CRC_INIT, &bytes[1..]);
    bytes.extend(check.to_le_bytes());
    bytes
}

pub fn reply(command: u8, status: u8, payload: &[u8]) -> Vec<u8> {
    frame(command, status, 0, 0, payload)
}

/// A frame with its check damaged.
pub fn damaged(mut bytes: Vec<u8>) -> Vec<u8> {
    if let Some(last) = bytes.last_mut() {
        *last ^= 0x5A;
    }
    bytes
}

/// The device information.
#[derive(Clone, Copy)]
pub struct Info {
    pub capacity: u32,
    pub erase_size: u16,
    pub compat: u32,
    pub max_payload: u16,
}

impl Info {
    pub fn bytes(&self) -> Vec<u8> {
        let mut b = self.capacity.to_le_bytes().to_vec();
        b.extend(self.erase_size.to_le_bytes());
        b.extend([3, 0, 7, 1, 2, 0xFF]);
        b.extend(self.compat.to_le_bytes());
        b.extend(self.max_payload.to_le_bytes());
        b
    }
}

/// The address in a request.
pub fn address(request: &[u8]) -> u32 {
    u32::from_le_bytes(request[4..8].try_into().unwrap())
}

/// The prefix that a Select's request asks for: its bit count, then its bits.
fn asked(request: &[u8]) -> (usize, &[u8]) {
    (request[11] as usize, &request[12..request.len() - 2])
}

fn begins((count, bits): (usize, &[u8]), id: &[u8]) -> bool {
    let (whole, spare) = (count / 8, count % 8);
    count <= 8 * id.len()
        && bits[..whole] == id[..whole]
        && (spare == 0 || (bits[whole] ^ id[whole]) << (8 - spare) == 0)
}

#[derive(Clone)]
pub enum Wire {
    /// The k-th request gets the k-th record; after the last there is silence.
    Scripted(Vec<Vec<u8>>),
    /// Pods with these ids: silence, the reply of the one that matches, or a clash.
    Honest(Vec<Vec<u8>>),
    /// Anything that a Select may hear, often an id that matches the prefix.
    Adverse(Random),
    /// Pods with these ids, each of which fails its confirmation down to its last bit: the most Selects for that many
    /// ids.
    Stubborn(Vec<Vec<u8>>, HashSet<(usize, Vec<u8>)>),
    /// One pod in its bootloader.
    Pod(Pod),
}

/// A pod: its device information, its faults, and what was written to it.
#[derive(Clone)]
pub struct Pod {
    pub info: Vec<u8>,
    pub faults: Random,
    /// Faults and refused Writes begin at this command and address. The requests of a flash come in this order.
    pub from: (u8, u32),
    /// One reply in this many is a fault; none if 0.
    pub every: usize,
    /// At each offset, this many Writes are first answered with status 3 or with a bad check.
    pub refuses: u8,
    pub seen: u8,
    pub flash: Vec<u8>,
    /// The payload of the Verify's reply; if None, the check of what was written.
    pub check: Option<Vec<u8>>,
}

impl Pod {
    pub fn new(info: Vec<u8>, seed: u64) -> Pod {
        Pod {
            info,
            faults: Random::new(seed),
            from: (0, 0),
            every: 0,
            refuses: 0,
            seen: 0,
            flash: Vec::new(),
            check: None,
        }
    }

    /// Whether faults have begun at this request.
    fn begun(&self, request: &[u8]) -> bool {
        (request[1], address(request)) >= self.from
    }

    fn sound(&mut self, request: &[u8]) -> Vec<u8> {
        let command = request[1];
        let address = address(request) as usize;
        let payload = &request[10..request.len() - 2];
        match command {
            0 => reply(0, 1, &self.info.clone()),
            2 => {
                if self.seen < self.refuses && self.begun(request) {
                    self.seen += 1;
                    return if self.seen % 2 == 0 { reply(2, 3, &[]) } else { damaged(reply(2, 1, &[])) };
                }
                self.seen = 0;
                if self.flash.len() < address + payload.len() {
                    self.flash.resize(address + payload.len(), 0xFF);
                }
                self.flash[address..address + payload.len()].copy_from_slice(payload);
                reply(2, 1, &[])
            }
            3 => match &self.check {
                Some(check) => reply(3, 1, check),
                None => {
                    let image = &self.flash[..address.min(self.flash.len())];
                    reply(3, 1, &crc16(CRC_INIT, image).to_le_bytes())
                }
            },
            5 => reply(5, 1, &[1, 2, 3]),
            _ => reply(command, 1, &[]),
        }
    }

    fn heard(&mut self, request: &[u8]) -> Vec<u8> {
        if self.every == 0 || !self.begun(request) || !self.faults.one_in(self.every) {
            return self.sound(request);
        }
        let r = &mut self.faults.clone();
        self.faults.next();
        let command = request[1];
        match r.below(12) {
            0 => Vec::new(),
            1 => request.to_vec(),
            2 => reply(command, 2 + r.byte() % 9, &r.bytes(3)),
            3 => damaged(self.sound(request)),
            4 => [damaged(request.to_vec()), self.sound(request)].concat(),
            5 => [request.to_vec(), request.to_vec(), self.sound(request)].concat(),
            6 => [self.sound(request), r.bytes(5)].concat(),
            7 => [vec![0, 1, 2], self.sound(request)].concat(),
            8 => {
                let mut b = self.sound(request);
                b.truncate(r.below(b.len()));
                b
            }
            9 => [vec![0xA5; 1], self.sound(request)].concat(),
            10 => [self.sound(request), reply(command, 1, &r.bytes(2))].concat(),
            _ => vec![0xA5, command, 1, 0, 0, 0, 0, 0, 1, 4],
        }
    }
}

impl Wire {
    /// The record of the k-th request.
    pub fn heard(&mut self, k: usize, request: &[u8]) -> Vec<u8> {
        match self {
            Wire::Scripted(records) => records.get(k).cloned().unwrap_or_default(),
            Wire::Honest(ids) => {
                let prefix = asked(request);
                let mut matching = ids.iter().filter(|id| begins(prefix, id));
                match (matching.next(), matching.next()) {
                    (None, _) => Vec::new(),
                    (Some(id), None) => reply(5, 1, id),
                    _ => vec![0],
                }
            }
            Wire::Adverse(r) => {
                let (count, bits) = asked(request);
                match r.below(16) {
                    0..4 => Vec::new(),
                    4..9 => vec![0x55],
                    9..14 => {
                        let mut id = r.bytes(1 + r.clone().below(16));
                        for k in 0..count.min(8 * id.len()) {
                            let bit = 1 << (k % 8);
                            id[k / 8] = id[k / 8] & !bit | bits[k / 8] & bit;
                        }
                        reply(5, 1, &id)
                    }
                    14 => {
                        let n = r.below(17);
                        reply(5, 1, &r.bytes(n))
                    }
                    _ if r.one_in(40) => reply(5, 2, &[]),
                    _ => Vec::new(),
                }
            }
            Wire::Stubborn(ids, met) => {
                let prefix = asked(request);
                let mut matching = ids.iter().filter(|id| begins(prefix, id));
                match (matching.next(), matching.next()) {
                    (Some(id), None) => reply(5, 1, id),
                    (None, _) if met.contains(&(prefix.0, prefix.1.to_vec())) => Vec::new(),
                    _ => {
                        met.insert((prefix.0, prefix.1.to_vec()));
                        vec![0]
                    }
                }
            }
            Wire::Pod(pod) => pod.heard(request),
        }
    }
}
