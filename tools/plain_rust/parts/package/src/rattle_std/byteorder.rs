//! The functions of the crate `byteorder` that are used.

pub trait ByteOrder {
    fn read_u32(buf: &[u8]) -> u32;
    fn read_u32_into(src: &[u8], dst: &mut [u32]);
    fn write_u32_into(src: &[u32], dst: &mut [u8]);
}

pub struct LittleEndian;

impl ByteOrder for LittleEndian {
    #[inline]
    fn read_u32(buf: &[u8]) -> u32 {
        u32::from_le_bytes([buf[0], buf[1], buf[2], buf[3]])
    }

    #[inline]
    fn read_u32_into(src: &[u8], dst: &mut [u32]) {
        for (word, bytes) in dst.iter_mut().zip(src.chunks_exact(4)) {
            *word = Self::read_u32(bytes);
        }
    }

    #[inline]
    fn write_u32_into(src: &[u32], dst: &mut [u8]) {
        for (word, bytes) in src.iter().zip(dst.chunks_exact_mut(4)) {
            bytes.copy_from_slice(&word.to_le_bytes());
        }
    }
}
