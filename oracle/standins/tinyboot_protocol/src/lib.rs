//! Stands in for `tinyboot_protocol`: document 01's bench frame, its check by document 02, and the numbers of commands,
//! statuses and flags.
#![allow(non_upper_case_globals)]

/// An unset compatibility key.
pub const COMPAT_UNSET: u32 = 0xFFFF_FFFF;

#[derive(Debug, Clone, Copy, PartialEq, Eq)]
pub struct Cmd(pub u8);

impl Cmd {
    pub const Info: Cmd = Cmd(0);
    pub const Erase: Cmd = Cmd(1);
    pub const Write: Cmd = Cmd(2);
    pub const Verify: Cmd = Cmd(3);
    pub const Reset: Cmd = Cmd(4);
    pub const Select: Cmd = Cmd(5);
}

#[derive(Debug, Clone, Copy, PartialEq, Eq)]
pub struct Status(pub u8);

impl Status {
    pub const Request: Status = Status(0);
    pub const Ok: Status = Status(1);
    pub const Unsupported: Status = Status(2);
    pub const CrcMismatch: Status = Status(3);
}

#[derive(Clone, Copy)]
pub struct WriteFlags(pub u8);

impl WriteFlags {
    pub const FLUSH: WriteFlags = WriteFlags(1);

    pub fn empty() -> WriteFlags {
        WriteFlags(0)
    }
}

#[derive(Clone, Copy)]
pub struct ResetFlags(pub u8);

impl ResetFlags {
    pub const BOOTLOADER: ResetFlags = ResetFlags(1);
    pub const BAUD: ResetFlags = ResetFlags(2);

    pub fn empty() -> ResetFlags {
        ResetFlags(0)
    }

    pub fn set(&mut self, flag: ResetFlags, on: bool) {
        if on {
            self.0 |= flag.0;
        } else {
            self.0 &= !flag.0;
        }
    }
}

pub mod crc {
    /// CRC-16/IBM-3740: polynomial 1021, start FFFF, no reflection, no final change.
    pub const CRC_INIT: u16 = 0xFFFF;

    pub fn crc16(start: u16, bytes: &[u8]) -> u16 {
        bytes.iter().fold(start, |c, &b| {
            (0..8).fold(c ^ ((b as u16) << 8), |c, _| if c & 0x8000 != 0 { (c << 1) ^ 0x1021 } else { c << 1 })
        })
    }
}

pub mod frame {
    use crate::crc::{CRC_INIT, crc16};
    use crate::{Cmd, ResetFlags, Status, WriteFlags};
    use embedded_io::{Read, Write};

    #[derive(Clone, Copy)]
    pub union Flags {
        pub raw: u8,
        pub write: WriteFlags,
        pub reset: ResetFlags,
    }

    #[derive(Clone, Copy)]
    #[repr(C, packed)]
    pub struct InfoData {
        pub capacity: u32,
        pub erase_size: u16,
        pub boot_version: u16,
        pub app_version: u16,
        pub mode: u8,
        pub boot_baud: u8,
        pub compat: u32,
        pub max_payload: u16,
    }

    impl InfoData {
        pub const SIZE: u16 = 18;
    }

    #[derive(Clone, Copy)]
    #[repr(C, packed)]
    pub struct EraseData {
        pub byte_count: u16,
    }

    #[derive(Clone, Copy)]
    #[repr(C, packed)]
    pub struct VerifyData {
        pub crc: u16,
    }

    #[derive(Clone, Copy)]
    pub union Data<const N: usize> {
        pub raw: [u8; N],
        pub info: InfoData,
        pub erase: EraseData,
        pub verify: VerifyData,
    }

    /// No A5, bytes missing, or a length over 1,024: no frame.
    #[derive(Debug)]
    pub struct NoFrame;

    #[derive(Clone, Copy)]
    pub struct Frame<const N: usize> {
        pub cmd: Cmd,
        pub status: Status,
        pub flags: Flags,
        addr: u32,
        pub len: u16,
        pub data: Data<N>,
    }

    impl<const N: usize> Default for Frame<N> {
        fn default() -> Self {
            Frame {
                cmd: Cmd::Info,
                status: Status::Request,
                flags: Flags { raw: 0 },
                addr: 0,
                len: 0,
                data: Data { raw: [0; N] },
            }
        }
    }

    impl<const N: usize> Frame<N> {
        pub fn addr(&self) -> u32 {
            self.addr
        }

        pub fn set_addr(&mut self, addr: u32) {
            self.addr = addr;
        }

        fn head(&self) -> [u8; 10] {
            let mut head = [0; 10];
            head[0] = 0xA5;
            head[1] = self.cmd.0;
            head[2] = self.status.0;
            head[3] = unsafe { self.flags.raw };
            head[4..8].copy_from_slice(&self.addr.to_le_bytes());
            head[8..10].copy_from_slice(&self.len.to_le_bytes());
            head
        }

        /// The whole frame, in one write.
        pub fn send<W: Write>(&self, w: &mut W) -> Result<(), W::Error> {
            let n = self.len as usize;
            let mut bytes = Vec::with_capacity(12 + n);
            bytes.extend_from_slice(&self.head());
            bytes.extend_from_slice(unsafe { &self.data.raw[..n] });
            bytes.extend_from_slice(&crc16(CRC_INIT, &bytes[1..]).to_le_bytes());
            let mut left = bytes.as_slice();
            while !left.is_empty() {
                let sent = w.write(left)?;
                left = &left[sent..];
            }
            w.flush()
        }

        /// The next frame: skips to A5; a bad check is `CrcMismatch`, with the fields still read.
        pub fn read<R: Read>(&mut self, r: &mut R) -> Result<Status, NoFrame> {
            let mut head = [0u8; 10];
            while head[0] != 0xA5 {
                fill(r, &mut head[..1])?;
            }
            fill(r, &mut head[1..])?;
            let n = u16::from_le_bytes([head[8], head[9]]);
            if n > 1024 || n as usize > N {
                return Err(NoFrame);
            }
            self.cmd = Cmd(head[1]);
            self.status = Status(head[2]);
            self.flags = Flags { raw: head[3] };
            self.addr = u32::from_le_bytes([head[4], head[5], head[6], head[7]]);
            self.len = n;
            let payload = unsafe { &mut self.data.raw[..n as usize] };
            fill(r, payload)?;
            let check = crc16(crc16(CRC_INIT, &head[1..]), payload);
            let mut last = [0u8; 2];
            fill(r, &mut last)?;
            if u16::from_le_bytes(last) == check { Ok(Status::Ok) } else { Ok(Status::CrcMismatch) }
        }
    }

    fn fill<R: Read>(r: &mut R, mut buf: &mut [u8]) -> Result<(), NoFrame> {
        while !buf.is_empty() {
            match r.read(buf) {
                Ok(0) | Err(_) => return Err(NoFrame),
                Ok(n) => buf = &mut buf[n..],
            }
        }
        Ok(())
    }
}
