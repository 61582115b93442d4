//! CRC-32C (Castagnoli), the checksum of record batches.

/// The polynomial 1EDC6F41 with its bits in reverse.
const POLYNOMIAL: u32 = 0x82f6_3b78;

/// Table 0 is of one byte; table n of a byte with n zero bytes behind it.
static TABLES: [[u32; 256]; 8] = tables();

const fn tables() -> [[u32; 256]; 8] {
    let mut tables = [[0; 256]; 8];
    let mut byte = 0;
    while byte < 256 {
        let mut crc = byte as u32;
        let mut bit = 0;
        while bit < 8 {
            crc = if crc & 1 == 1 { crc >> 1 ^ POLYNOMIAL } else { crc >> 1 };
            bit += 1;
        }
        tables[0][byte] = crc;
        byte += 1;
    }
    let mut table = 1;
    while table < 8 {
        let mut byte = 0;
        while byte < 256 {
            let crc = tables[table - 1][byte];
            tables[table][byte] = crc >> 8 ^ tables[0][(crc & 255) as usize];
            byte += 1;
        }
        table += 1;
    }
    tables
}

/// The CRC-32C of these bytes (RFC 3720, appendix B.4), eight bytes at a time.
#[must_use]
pub fn crc32c(bytes: &[u8]) -> u32 {
    let mut crc = !0u32;
    let mut rest = bytes;
    while let Some((eight, behind)) = rest.split_first_chunk() {
        let mixed = (u64::from_le_bytes(*eight) ^ u64::from(crc)).to_le_bytes();
        crc = mixed.iter().zip(TABLES.iter().rev()).fold(0, |sum, (byte, table)| sum ^ table[usize::from(*byte)]);
        rest = behind;
    }
    for byte in rest {
        crc = crc >> 8 ^ TABLES[0][usize::from(*byte ^ crc as u8)];
    }
    !crc
}

#[cfg(test)]
mod tests {
    use super::crc32c;

    // The check value of the catalogue of CRC algorithms, and the examples of RFC 3720, appendix B.4.
    #[test]
    fn known_values() {
        let rising: Vec<u8> = (0..32).collect();
        let falling: Vec<u8> = (0..32).rev().collect();
        assert_eq!(crc32c(b"123456789"), 0xe306_9283);
        assert_eq!(crc32c(b""), 0);
        assert_eq!(crc32c(&[0; 32]), 0x8a91_36aa);
        assert_eq!(crc32c(&[0xff; 32]), 0x62a8_ab43);
        assert_eq!(crc32c(&rising), 0x46dd_794e);
        assert_eq!(crc32c(&falling), 0x113f_db5c);
    }

    // Bit by bit, as the definition has it, at each length about the step of eight.
    #[test]
    fn each_length_agrees_with_the_definition() {
        let bytes: Vec<u8> = (0..70u32).map(|it| (it * 37 + 11) as u8).collect();
        for length in 0..bytes.len() {
            let mut crc = !0u32;
            for byte in &bytes[..length] {
                crc ^= u32::from(*byte);
                for _ in 0..8 {
                    crc = if crc & 1 == 1 { crc >> 1 ^ super::POLYNOMIAL } else { crc >> 1 };
                }
            }
            assert_eq!(crc32c(&bytes[..length]), !crc, "{length} bytes");
        }
    }
}
