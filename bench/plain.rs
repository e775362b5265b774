// A receiver as one writes it without proofs: the same buffer, the same rules, the same table.

const LONGEST: usize = 263;
const ROOM: usize = 2 * LONGEST;

const fn table() -> [u16; 256] {
    let mut table = [0u16; 256];
    let mut i = 0;
    while i < 256 {
        let mut register = i as u16;
        let mut k = 0;
        while k < 8 {
            register = if register & 1 == 1 { (register >> 1) ^ 0xA001 } else { register >> 1 };
            k += 1;
        }
        table[i] = register;
        i += 1;
    }
    table
}

static TABLE: [u16; 256] = table();

fn crc16(bytes: &[u8]) -> u16 {
    let mut register = 0xFFFF;
    for byte in bytes {
        let x = register ^ u16::from(*byte);
        register = (x >> 8) ^ TABLE[(x & 0xFF) as usize];
    }
    register
}

enum Verdict {
    Whole(usize),
    Possible,
    Impossible,
}

fn judge(held: &[u8]) -> Verdict {
    let n = held.len();
    if n == 0 {
        return Verdict::Possible;
    }
    if held[0] & 0x77 != 0x75 {
        return Verdict::Impossible;
    }
    if n == 1 {
        return Verdict::Possible;
    }
    let second = held[1];
    if second & 0x18 == 0 || second & 0x04 != 0 {
        return Verdict::Impossible;
    }
    if n > 2 && second & 0x80 != 0 && held[2] > 15 {
        return Verdict::Impossible;
    }
    let place = 2 + usize::from(second >> 7);
    if n <= place {
        return Verdict::Possible;
    }
    let size = usize::from(held[place]);
    if size < 4 {
        return Verdict::Impossible;
    }
    let header = 4 + ((second & 0xE0) | (held[0] & 0x08)).count_ones() as usize;
    let end = header + size;
    let check = end - 2;
    if n <= check {
        return Verdict::Possible;
    }
    let number = crc16(&held[header..check]).to_le_bytes();
    let last = n.min(end);
    if held[check..last] != number[..last - check] {
        return Verdict::Impossible;
    }
    if n < end { Verdict::Possible } else { Verdict::Whole(end) }
}

enum Answer {
    Packet(usize),
    Noise(usize),
    Waiting,
}

struct Receiver {
    bytes: [u8; ROOM],
    start: usize,
    len: usize,
    open: bool,
}

impl Receiver {
    fn next(&mut self, line: &mut &[u8], buffer: &mut [u8]) -> Answer {
        let mut n = 0;
        loop {
            if n == 1024 {
                return Answer::Noise(n);
            }
            match judge(&self.bytes[self.start..self.start + self.len]) {
                Verdict::Whole(length) => {
                    if n > 0 {
                        return Answer::Noise(n);
                    }
                    buffer[..length].copy_from_slice(&self.bytes[self.start..self.start + length]);
                    self.start += length;
                    self.len -= length;
                    return Answer::Packet(length);
                }
                Verdict::Possible if self.open => {
                    let Some((first, rest)) = line.split_first() else {
                        return if n > 0 { Answer::Noise(n) } else { Answer::Waiting };
                    };
                    *line = rest;
                    if self.start + self.len == ROOM {
                        self.bytes.copy_within(self.start.., 0);
                        self.start = 0;
                    }
                    self.bytes[self.start + self.len] = *first;
                    self.len += 1;
                }
                Verdict::Possible if self.len == 0 => {
                    self.open = true;
                    if n > 0 {
                        return Answer::Noise(n);
                    }
                }
                _ => {
                    self.start += 1;
                    self.len -= 1;
                    n += 1;
                }
            }
        }
    }
}

#[no_mangle]
#[inline(never)]
pub extern "C" fn plain_crc16(bytes: *const u8, length: usize) -> u64 {
    let mut line = unsafe { std::slice::from_raw_parts(bytes, length) };
    let mut receiver = Receiver { bytes: [0; ROOM], start: 0, len: 0, open: true };
    let mut buffer = [0u8; LONGEST];
    let mut told: u64 = 0;
    loop {
        match receiver.next(&mut line, &mut buffer) {
            Answer::Packet(length) => told = told.wrapping_mul(31).wrapping_add(length as u64),
            Answer::Noise(count) => told = told.wrapping_mul(37).wrapping_add(count as u64),
            Answer::Waiting => return told,
        }
    }
}
