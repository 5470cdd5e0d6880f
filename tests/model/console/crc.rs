//! The two CRCs: CRC-32 over the image, and the packet check of FD.

/// "CRC-32: the usual reflected one (EDB88320, start and final xor FFFFFFFF)."
const CRC32_POLYNOMIAL: u32 = 0xEDB8_8320;
/// The register before the first byte.
pub const CRC32_START: u32 = 0xFFFF_FFFF;
const CRC32_FINAL_XOR: u32 = 0xFFFF_FFFF;

/// K1: "the MODBUS one (8005 reflected, start FFFF, no final xor)".
const CRC16_POLYNOMIAL: u16 = 0x8005_u16.reverse_bits();
const CRC16_START: u16 = 0xFFFF;

/// How many bytes the CRC-32 takes at once.
const STRIDE: usize = 16;

/// `CRC32_TABLES[k][b]`: what the byte `b` does to the register once `k` zero bytes have followed
/// it.
static CRC32_TABLES: [[u32; 256]; STRIDE] = crc32_tables();
static CRC16_TABLE: [u16; 256] = crc16_table();

const fn crc32_tables() -> [[u32; 256]; STRIDE] {
    let mut tables = [[0; 256]; STRIDE];
    let mut byte = 0;
    while byte < 256 {
        let mut register = byte as u32;
        let mut bit = 0;
        while bit < 8 {
            let carry = register & 1;
            register >>= 1;
            if carry == 1 {
                register ^= CRC32_POLYNOMIAL;
            }
            bit += 1;
        }
        tables[0][byte] = register;
        byte += 1;
    }
    let mut behind = 1;
    while behind < STRIDE {
        let mut byte = 0;
        while byte < 256 {
            let register = tables[behind - 1][byte];
            tables[behind][byte] = (register >> 8) ^ tables[0][(register & 0xFF) as usize];
            byte += 1;
        }
        behind += 1;
    }
    tables
}

const fn crc16_table() -> [u16; 256] {
    let mut table = [0; 256];
    let mut byte = 0;
    while byte < 256 {
        let mut register = byte as u16;
        let mut bit = 0;
        while bit < 8 {
            let carry = register & 1;
            register >>= 1;
            if carry == 1 {
                register ^= CRC16_POLYNOMIAL;
            }
            bit += 1;
        }
        table[byte] = register;
        byte += 1;
    }
    table
}

/// The register after further bytes, "before the final xor".
pub fn crc32_advance(register: u32, bytes: &[u8]) -> u32 {
    let mut strides = bytes.chunks_exact(STRIDE);
    let mut register = register;
    for stride in &mut strides {
        let mut block = [0; STRIDE];
        block.copy_from_slice(stride);
        // The register lies over the first four bytes, lowest byte first.
        for (byte, covering) in block.iter_mut().zip(register.to_le_bytes()) {
            *byte ^= covering;
        }
        register = block
            .iter()
            .zip(CRC32_TABLES.iter().rev())
            .fold(0, |sum, (&byte, table)| sum ^ table[usize::from(byte)]);
    }
    strides.remainder().iter().fold(register, |register, &byte| {
        (register >> 8) ^ CRC32_TABLES[0][usize::from(register as u8 ^ byte)]
    })
}

/// The CRC-32 that a register stands for.
pub fn crc32_finish(register: u32) -> u32 {
    register ^ CRC32_FINAL_XOR
}

pub fn crc32(bytes: &[u8]) -> u32 {
    crc32_finish(crc32_advance(CRC32_START, bytes))
}

/// "CRC-16 of a packet's n bytes", as K1 mends it.
pub fn crc16(bytes: &[u8]) -> u16 {
    bytes.iter().fold(CRC16_START, |register, &byte| {
        (register >> 8) ^ CRC16_TABLE[usize::from(register as u8 ^ byte)]
    })
}
