// Compares the proved receiver with a plain one of the same design.
//   bench WHICH INPUT BYTES    WHICH is proved or plain; INPUT is packets12, packets259, noise or nested
// Prints what came out, so that both can be seen to answer the same.

mod plain;

#[link(name = "bench_abi", kind = "static")]
extern "C" {
    fn receive_crc16(bytes: *const u8, length: usize) -> u64;
}

fn crc16(bytes: &[u8]) -> u16 {
    let mut register = 0xFFFFu16;
    for byte in bytes {
        register ^= u16::from(*byte);
        for _ in 0..8 {
            let lost = register & 1;
            register >>= 1;
            if lost == 1 {
                register ^= 0xA001;
            }
        }
    }
    register
}

fn packet(message: &[u8]) -> Vec<u8> {
    let mut bytes = vec![0x75, 0x08, (message.len() + 2) as u8, 0x05];
    bytes.extend_from_slice(message);
    bytes.extend_from_slice(&crc16(message).to_le_bytes());
    bytes
}

fn input(name: &str, length: usize) -> Vec<u8> {
    let mut bytes = Vec::with_capacity(length + 300);
    let mut seed = 0x2545_F491_4F6C_DD1Du64;
    let mut random = || {
        seed ^= seed << 13;
        seed ^= seed >> 7;
        seed ^= seed << 17;
        (seed >> 32) as u8
    };
    while bytes.len() < length {
        match name {
            "packets12" => bytes.extend(packet(&[0x11, 0x11, 0x07, 0x00, 0x02, 0x01])),
            "packets259" => {
                let message: Vec<u8> = (0..253).map(|_| random()).collect();
                bytes.extend(packet(&message));
            }
            "noise" => bytes.push(random()),
            // each pair of bytes opens a header whose size is 253, so each is weighed and dropped
            "nested" => bytes.extend([0xFD, 0x08]),
            _ => panic!("no such input"),
        }
    }
    bytes
}

fn main() {
    let words: Vec<String> = std::env::args().collect();
    let bytes = input(&words[2], words[3].parse().unwrap());
    let told = match words[1].as_str() {
        "proved" => unsafe { receive_crc16(bytes.as_ptr(), bytes.len()) },
        "plain" => plain::plain_crc16(bytes.as_ptr(), bytes.len()),
        _ => panic!("proved or plain"),
    };
    println!("{} {told}", bytes.len());
}
