//! Numbers in bytes, as in the crate byteorder. A slice that is too short panics.

/// The order of the bytes of a number.
pub trait ByteOrder {
    fn read_u16(bytes: &[u8]) -> u16;
    fn read_u32(bytes: &[u8]) -> u32;
    fn read_u64(bytes: &[u8]) -> u64;
    fn read_i32(bytes: &[u8]) -> i32;
    /// Reads a number of `count` bytes, at most 8.
    fn read_uint(bytes: &[u8], count: usize) -> u64;
    /// Reads a number of `count` bytes, at most 16.
    fn read_uint128(bytes: &[u8], count: usize) -> u128;
    fn write_u16(bytes: &mut [u8], number: u16);
    fn write_u32(bytes: &mut [u8], number: u32);
    fn write_u64(bytes: &mut [u8], number: u64);
    fn read_u16_into(bytes: &[u8], numbers: &mut [u16]);
    fn read_u32_into(bytes: &[u8], numbers: &mut [u32]);
    fn read_u64_into(bytes: &[u8], numbers: &mut [u64]);
    fn write_u16_into(numbers: &[u16], bytes: &mut [u8]);
    fn write_u32_into(numbers: &[u32], bytes: &mut [u8]);
    fn write_u64_into(numbers: &[u64], bytes: &mut [u8]);
}

macro_rules! number {
    ($number:ident, $read:ident, $write:ident, $read_into:ident, $write_into:ident,
     $from:ident, $to:ident) => {
        #[inline(always)]
        fn $read(bytes: &[u8]) -> $number {
            $number::$from(*bytes.first_chunk().unwrap())
        }

        #[inline(always)]
        fn $write(bytes: &mut [u8], number: $number) {
            *bytes.first_chunk_mut().unwrap() = number.$to();
        }

        #[inline(always)]
        fn $read_into(bytes: &[u8], numbers: &mut [$number]) {
            const WIDTH: usize = core::mem::size_of::<$number>();
            assert!(bytes.len() == WIDTH * numbers.len());
            for (number, bytes) in numbers.iter_mut().zip(bytes.chunks_exact(WIDTH)) {
                *number = Self::$read(bytes);
            }
        }

        #[inline(always)]
        fn $write_into(numbers: &[$number], bytes: &mut [u8]) {
            const WIDTH: usize = core::mem::size_of::<$number>();
            assert!(bytes.len() == WIDTH * numbers.len());
            for (number, bytes) in numbers.iter().zip(bytes.chunks_exact_mut(WIDTH)) {
                Self::$write(bytes, *number);
            }
        }
    };
}

macro_rules! order {
    ($order:ident, $from:ident, $to:ident, $first:expr) => {
        pub enum $order {}

        impl ByteOrder for $order {
            number!(u16, read_u16, write_u16, read_u16_into, write_u16_into, $from, $to);
            number!(u32, read_u32, write_u32, read_u32_into, write_u32_into, $from, $to);
            number!(u64, read_u64, write_u64, read_u64_into, write_u64_into, $from, $to);

            #[inline(always)]
            fn read_i32(bytes: &[u8]) -> i32 {
                i32::$from(*bytes.first_chunk().unwrap())
            }

            #[inline(always)]
            fn read_uint(bytes: &[u8], count: usize) -> u64 {
                let mut number = [0; 8];
                let first: fn(usize, usize) -> usize = $first;
                let start = first(number.len(), count);
                number[start..][..count].copy_from_slice(&bytes[..count]);
                u64::$from(number)
            }

            #[inline(always)]
            fn read_uint128(bytes: &[u8], count: usize) -> u128 {
                let mut number = [0; 16];
                let first: fn(usize, usize) -> usize = $first;
                let start = first(number.len(), count);
                number[start..][..count].copy_from_slice(&bytes[..count]);
                u128::$from(number)
            }
        }
    };
}

order!(LittleEndian, from_le_bytes, to_le_bytes, |_, _| 0);
order!(BigEndian, from_be_bytes, to_be_bytes, |len, count| len - count);
