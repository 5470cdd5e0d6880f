//! The two check sums of the protocol, one table each, built at compile time.
//!
//! CRC-16 of a packet's n bytes: "the MODBUS one (8005 reflected, start FFFF,
//! no final xor; 123456789 gives 4B37)" (document 02, K1). 01, "The six
//! commands": "CRC-32: the usual reflected one (EDB88320, start and final xor
//! FFFFFFFF)."

static CRC16_TABLE: [u16; 256] = crc16_table();
static CRC32_TABLE: [u32; 256] = crc32_table();

const fn crc16_table() -> [u16; 256] {
    let mut table = [0; 256];
    let mut index = 0;
    while index < 256 {
        let mut crc = index as u16;
        let mut bit = 0;
        while bit < 8 {
            crc = if crc & 1 != 0 { (crc >> 1) ^ 0x8005_u16.reverse_bits() } else { crc >> 1 };
            bit += 1;
        }
        table[index] = crc;
        index += 1;
    }
    table
}

const fn crc32_table() -> [u32; 256] {
    let mut table = [0; 256];
    let mut index = 0;
    while index < 256 {
        let mut crc = index as u32;
        let mut bit = 0;
        while bit < 8 {
            crc = if crc & 1 != 0 { (crc >> 1) ^ 0xEDB8_8320 } else { crc >> 1 };
            bit += 1;
        }
        table[index] = crc;
        index += 1;
    }
    table
}

/// CRC-16 of a packet's bytes.
pub fn crc16(bytes: &[u8]) -> u16 {
    bytes
        .iter()
        .fold(0xFFFF, |crc: u16, &byte| (crc >> 8) ^ CRC16_TABLE[usize::from(crc as u8 ^ byte)])
}

/// CRC-32 of an image or of its stored part.
pub fn crc32(bytes: &[u8]) -> u32 {
    !crc32_over(CRC32_START, bytes)
}

/// The CRC-32's register before the first byte.
pub const CRC32_START: u32 = !0;

/// The CRC-32's register, moved over more bytes: an image may come in parts.
pub fn crc32_over(register: u32, bytes: &[u8]) -> u32 {
    bytes
        .iter()
        .fold(register, |crc, &byte| (crc >> 8) ^ CRC32_TABLE[usize::from(crc as u8 ^ byte)])
}
