//! A simulated wire with pods on it, for the example and the tests.

/// The size of a pod's app region.
pub const CAPACITY: usize = 4096;

/// The size of its erase blocks.
const BLOCK: usize = 512;

/// What it reports of itself; it takes payloads of 64 bytes.
const INFO: [u8; 18] = [0, 0x10, 0, 0, 0, 2, 1, 0, 2, 0, 0, 0xFF, 0xFF, 0xFF, 0xFF, 0xFF, 64, 0];

/// A frame from a pod. Its check leaves out byte 0, which is A5.
pub fn reply(command: u8, status: u8, payload: &[u8]) -> Vec<u8> {
    let mut frame = vec![0xA5, command, status, 0, 0, 0, 0, 0, payload.len() as u8, 0];
    frame.extend(payload);
    frame.extend(fahireky::crc16(0xFFFF, &frame[1..]).to_le_bytes());
    frame
}

/// A pod: its id, whether the last Select took it, and its app region.
pub struct Pod {
    id: Vec<u8>,
    selected: bool,
    pub flash: [u8; CAPACITY],
}

impl Pod {
    /// Whether its id has the first so many bits of a prefix.
    fn matches(&self, bits: usize, prefix: &[u8]) -> bool {
        let bit = |bytes: &[u8], k: usize| bytes[k / 8] >> (k % 8) & 1;
        bits <= 8 * self.id.len() && (0..bits).all(|k| bit(&self.id, k) == bit(prefix, k))
    }

    /// Its answer to a request other than a Select.
    fn answer(&mut self, request: &[u8]) -> Vec<u8> {
        let address = u32::from_le_bytes(request[4..8].try_into().unwrap()) as usize;
        let payload = &request[10..request.len() - 2];
        let command = request[1];
        match command {
            0 => return reply(command, 1, &INFO),
            1 => self.flash[address..address + BLOCK].fill(0xFF),
            2 => self.flash[address..address + payload.len()].copy_from_slice(payload),
            3 => return reply(command, 1, &fahireky::crc16(0xFFFF, &self.flash[..address]).to_le_bytes()),
            _ => {}
        }
        reply(command, 1, &[])
    }
}

/// The wire that all pods share.
pub struct Wire {
    pub pods: Vec<Pod>,
}

impl Wire {
    /// A wire with a pod for each id.
    pub fn new<I: AsRef<[u8]>>(ids: &[I]) -> Wire {
        let pod = |id: &I| Pod { id: id.as_ref().to_vec(), selected: false, flash: [0; CAPACITY] };
        Wire { pods: ids.iter().map(pod).collect() }
    }

    /// What is heard after a request: its echo, then the answers.
    pub fn exchange(&mut self, request: &[u8]) -> Vec<u8> {
        let answers = if request[1] == 5 { self.select(request) } else { self.answers(request) };
        [request, &answers].concat()
    }

    /// The answer to a Select: garble where several pods speak at once.
    fn select(&mut self, request: &[u8]) -> Vec<u8> {
        for pod in &mut self.pods {
            pod.selected = pod.matches(request[11].into(), &request[12..]);
        }
        let mut speakers = self.pods.iter().filter(|pod| pod.selected);
        match (speakers.next(), speakers.next()) {
            (None, _) => vec![],
            (Some(pod), None) => reply(5, 1, &pod.id),
            _ => vec![0x5A],
        }
    }

    fn answers(&mut self, request: &[u8]) -> Vec<u8> {
        self.pods.iter_mut().filter(|pod| pod.selected).flat_map(|pod| pod.answer(request)).collect()
    }
}
