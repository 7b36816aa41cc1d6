//! The Rust of aes 0.9.3 as a library: its fixsliced modules, included by path and unchanged, with their
//! visibility opened and nothing added but lengths. `build.sh` puts the path of the source where AES_RUST_SRC stands.
//!
//! The source names two crates that cannot be had here. This crate stands in for both, under their names:
//! of `cipher` it uses an array type with a length in its type, of `cpubits` a macro that picks a width.
#![allow(dead_code, unused_imports)] // of the source we call key_schedule, encrypt and decrypt only

extern crate self as cipher;
extern crate self as cpubits;

pub use array::Array;

pub mod consts {
    pub struct U2;
    pub struct U4;
    pub struct U16;
}

pub mod array {
    use core::ops::{Deref, DerefMut};

    pub trait ArraySize {
        type Of<T>: AsRef<[T]> + AsMut<[T]>;
        fn filled<T: Default>() -> Self::Of<T>;
    }

    macro_rules! size {
        ($($name:ident $n:literal),*) => { $(
            impl ArraySize for crate::consts::$name {
                type Of<T> = [T; $n];
                #[inline(always)]
                fn filled<T: Default>() -> [T; $n] {
                    core::array::from_fn(|_| T::default())
                }
            }
        )* };
    }
    size!(U2 2, U4 4, U16 16);

    #[repr(transparent)] // so that a run of bytes can be seen as blocks, and nothing is copied to call
    pub struct Array<T, N: ArraySize>(N::Of<T>);

    impl<T: Default, N: ArraySize> Default for Array<T, N> {
        #[inline(always)]
        fn default() -> Self {
            Array(N::filled())
        }
    }
    impl<T, N: ArraySize> Deref for Array<T, N> {
        type Target = [T];
        #[inline(always)]
        fn deref(&self) -> &[T] {
            self.0.as_ref()
        }
    }
    impl<T, N: ArraySize> DerefMut for Array<T, N> {
        #[inline(always)]
        fn deref_mut(&mut self) -> &mut [T] {
            self.0.as_mut()
        }
    }
    impl<T, N: ArraySize> Array<T, N> {
        #[inline(always)]
        pub fn as_slice(&self) -> &[T] {
            self
        }
    }
}

#[macro_export]
macro_rules! cpubits {
    (16 | 32 => { $($_narrow:item)* } 64 => { $($wide:item)* }) => { $($wide)* };
}

pub(crate) type Block = Array<u8, consts::U16>;

#[path = "AES_RUST_SRC/backends/fixslice/mod.rs"]
mod fixslice;

/// A key's bytes, and the words of its schedule.
pub const SIZES: [(usize, usize); 2] = [(16, 88), (32, 120)];

/// The words of a schedule for a key of this many bytes, or 0.
pub fn words(key_len: usize) -> usize {
    SIZES.iter().find(|size| size.0 == key_len).map_or(0, |size| size.1)
}

/// The keys of FIPS-197's Appendix A.1 and A.3.
pub const FIPS_KEYS: [&[u8]; 2] = [
    b"\x2b\x7e\x15\x16\x28\xae\xd2\xa6\xab\xf7\x15\x88\x09\xcf\x4f\x3c",
    b"\x60\x3d\xeb\x10\x15\xca\x71\xbe\x2b\x73\xae\xf0\x85\x7d\x77\x81\
      \x1f\x35\x2c\x07\x3b\x61\x08\xd7\x2d\x98\x10\xa3\x09\x14\xdf\xf4",
];

/// What a buffer holds: bytes or words.
pub trait Element: Copy + PartialEq + core::fmt::LowerHex + 'static {
    /// The low bits of x.
    fn low(x: u64) -> Self;
}

macro_rules! element {
    ($($t:ident),*) => { $(
        impl Element for $t {
            fn low(x: u64) -> Self {
                x as $t
            }
        }
    )* };
}
element!(u8, u32, u64);

/// Each element in lowercase hex, most significant digit first, with nothing between.
pub fn hex<T: Element>(elements: &[T]) -> String {
    let digits = 2 * size_of::<T>();
    elements.iter().map(|x| format!("{x:0digits$x}")).collect()
}

/// What the crate does with words of one width. Lengths are the right ones: a wrong one panics.
pub trait Width: Element {
    /// Bytes of a full batch.
    const BATCH: usize;
    fn expand(key: &[u8], schedule: &mut [Self]);
    /// Direction 0 encrypts, 1 decrypts.
    fn crypt(direction: u32, schedule: &[Self], input: &[u8], output: &mut [u8]);
}

/// The key check value: the first three bytes of the CMAC (SP 800-38B) of sixteen zero bytes, by the crate's cipher in
/// slot 0. The crate has no CMAC.
pub fn check_value<W: Width>(schedule: &[W]) -> [u8; 3] {
    let cipher = |block: u128| {
        let (mut input, mut output) = (vec![0; W::BATCH], vec![0; W::BATCH]);
        input[..16].copy_from_slice(&block.to_be_bytes());
        W::crypt(0, schedule, &input, &mut output);
        u128::from_be_bytes(output[..16].try_into().unwrap())
    };
    let l = cipher(0);
    let k1 = if l >> 127 == 0 { l << 1 } else { (l << 1) ^ 0x87 };
    let [a, b, c, ..] = cipher(k1).to_be_bytes();
    [a, b, c]
}

fn array<T, const N: usize>(words: &mut [T]) -> &mut [T; N] {
    words.try_into().ok().unwrap()
}

macro_rules! width {
    ($word:ident, $batch:literal) => {
        impl Width for $word {
            const BATCH: usize = $batch;
            fn expand(key: &[u8], schedule: &mut [Self]) {
                // Stored as an array, where the crate keeps its round keys too: no copy that it does not make.
                match key.len() {
                    16 => *array(schedule) = fixslice::aes128::key_schedule(key.try_into().unwrap()),
                    _ => *array(schedule) = fixslice::aes256::key_schedule(key.try_into().unwrap()),
                }
            }
            #[inline] // so that a caller with a fixed direction pays for none of these tests
            fn crypt(direction: u32, schedule: &[Self], input: &[u8], output: &mut [u8]) {
                assert!(input.len() == $batch && output.len() == $batch && direction < 2);
                // Array<Array<u8, U16>, _> is as many bytes, transparently, and any bytes are a value of it.
                let (blocks, to) = unsafe {
                    let from = input.as_ptr() as *const fixslice::BatchBlocks<$word>;
                    (&*from, &mut *(output.as_mut_ptr() as *mut fixslice::BatchBlocks<$word>))
                };
                *to = match (schedule.len(), direction) {
                    (88, 0) => fixslice::aes128::encrypt(schedule.try_into().unwrap(), blocks),
                    (88, _) => fixslice::aes128::decrypt(schedule.try_into().unwrap(), blocks),
                    (_, 0) => fixslice::aes256::encrypt(schedule.try_into().unwrap(), blocks),
                    (_, _) => fixslice::aes256::decrypt(schedule.try_into().unwrap(), blocks),
                };
            }
        }
    };
}
width!(u32, 32);
width!(u64, 64);

/// splitmix64: small, and the same numbers from the same seed on every machine.
pub struct Random(pub u64);

impl Random {
    pub fn next(&mut self) -> u64 {
        self.0 = self.0.wrapping_add(0x9e37_79b9_7f4a_7c15);
        let z = (self.0 ^ (self.0 >> 30)).wrapping_mul(0xbf58_476d_1ce4_e5b9);
        let z = (z ^ (z >> 27)).wrapping_mul(0x94d0_49bb_1331_11eb);
        z ^ (z >> 31)
    }
    pub fn fill<T: Element>(&mut self, buffer: &mut [T]) {
        buffer.iter_mut().for_each(|x| *x = T::low(self.next()));
    }
}
