//! Indices, divisors and options that the proofs of the sources are about.
//!
//! The tool that exports this crate writes `a[proved(i)]` for each index `a[i]`, `n / nonzero(d)` for each division by a variable,
//! `.proved()` for `.unwrap()`, `encoded(c, &mut bytes)` for `c.encode_utf8(&mut bytes)`, and `ending(bytes)` for
//! `bytes.last_chunk().unwrap()`. Without the feature `proved` they do what Rust does, which is to test. With it nothing is tested: the
//! proofs say that each index is in bounds, that no divisor is 0, that each of these options is `Some`, that a character has at most
//! four bytes, and that a number's text begins in its buffer (`within`).
#![allow(dead_code, unused_imports)]

#[cfg(not(feature = "proved"))]
mod tested {
    #[inline(always)]
    pub(crate) fn proved<I>(index: I) -> I {
        index
    }

    #[inline(always)]
    pub(crate) fn nonzero<N>(divisor: N) -> N {
        divisor
    }

    #[inline(always)]
    pub(crate) fn within<const N: usize>(start: usize) -> usize {
        N - ((N - 1 - start) % N.next_power_of_two() + 1)
    }

    #[inline(always)]
    pub(crate) fn encoded(character: char, bytes: &mut [u8; 4]) -> &str {
        character.encode_utf8(bytes)
    }

    #[inline(always)]
    pub(crate) fn ending<const N: usize>(bytes: &[u8]) -> &[u8; N] {
        bytes.last_chunk().unwrap()
    }

    #[inline(always)]
    pub(crate) fn ending_mut<const N: usize>(bytes: &mut [u8]) -> &mut [u8; N] {
        bytes.last_chunk_mut().unwrap()
    }

    pub(crate) trait IsSome<T> {
        fn proved(self) -> T;
    }

    impl<T> IsSome<T> for Option<T> {
        #[inline(always)]
        fn proved(self) -> T {
            self.unwrap()
        }
    }
}

#[cfg(feature = "proved")]
mod untested {
    use core::ops::{Index, IndexMut};
    use core::slice::SliceIndex;

    /// An index or a range that is in bounds.
    pub(crate) struct Proved<I>(I);

    #[inline(always)]
    pub(crate) fn proved<I>(index: I) -> Proved<I> {
        Proved(index)
    }

    impl<T, I: SliceIndex<[T]>> Index<Proved<I>> for [T] {
        type Output = I::Output;

        #[inline(always)]
        fn index(&self, index: Proved<I>) -> &I::Output {
            // SAFETY: the proof of the function that indexes says that the index is in bounds.
            unsafe { self.get_unchecked(index.0) }
        }
    }

    impl<T, I: SliceIndex<[T]>> IndexMut<Proved<I>> for [T] {
        #[inline(always)]
        fn index_mut(&mut self, index: Proved<I>) -> &mut I::Output {
            // SAFETY: as above.
            unsafe { self.get_unchecked_mut(index.0) }
        }
    }

    impl<I: SliceIndex<str>> Index<Proved<I>> for str {
        type Output = I::Output;

        #[inline(always)]
        fn index(&self, index: Proved<I>) -> &I::Output {
            // SAFETY: as above. The ends of the range are between two characters.
            unsafe { self.get_unchecked(index.0) }
        }
    }

    #[inline(always)]
    pub(crate) fn nonzero<N: Copy + PartialEq + From<bool>>(divisor: N) -> N {
        if divisor == N::from(false) {
            // SAFETY: the proof of the function that divides says that the divisor isn't 0.
            unsafe { core::hint::unreachable_unchecked() }
        }
        divisor
    }

    #[inline(always)]
    pub(crate) fn within<const N: usize>(start: usize) -> usize {
        debug_assert!(start < N);
        if start >= N {
            // SAFETY: the contract of `end_of` requires that the start is within the buffer.
            unsafe { core::hint::unreachable_unchecked() }
        }
        start
    }

    // Core's function tests that there is room, and isn't inlined at `opt-level` "z".
    #[inline]
    pub(crate) fn encoded(character: char, bytes: &mut [u8; 4]) -> &str {
        let code = character as u32;
        let later = |shift: u32| (code >> shift & 0x3f) as u8 | 0x80;
        let length = character.len_utf8();
        *bytes = match length {
            1 => [code as u8, 0, 0, 0],
            2 => [(code >> 6) as u8 | 0xc0, later(0), 0, 0],
            3 => [(code >> 12) as u8 | 0xe0, later(6), later(0), 0],
            _ => [(code >> 18) as u8 | 0xf0, later(12), later(6), later(0)],
        };
        // SAFETY: these are the bytes of the character. `tests/worked_rows.rs` compares them for each character.
        unsafe { core::str::from_utf8_unchecked(bytes.get_unchecked(..length)) }
    }

    // Core's two functions split the slice, which tests its length again.
    #[inline(always)]
    pub(crate) fn ending<const N: usize>(bytes: &[u8]) -> &[u8; N] {
        // SAFETY: the proof of the function that calls this says that the slice has N bytes. An array of bytes has no alignment.
        unsafe { &*bytes.as_ptr().add(bytes.len() - N).cast() }
    }

    #[inline(always)]
    pub(crate) fn ending_mut<const N: usize>(bytes: &mut [u8]) -> &mut [u8; N] {
        let start = bytes.len() - N;
        // SAFETY: as above.
        unsafe { &mut *bytes.as_mut_ptr().add(start).cast() }
    }

    pub(crate) trait IsSome<T> {
        fn proved(self) -> T;
    }

    impl<T> IsSome<T> for Option<T> {
        #[inline(always)]
        fn proved(self) -> T {
            // SAFETY: the proof of the function that unwraps says that this is `Some`.
            unsafe { self.unwrap_unchecked() }
        }
    }
}

#[cfg(not(feature = "proved"))]
pub(crate) use tested::{IsSome, encoded, ending, ending_mut, nonzero, proved, within};
#[cfg(feature = "proved")]
pub(crate) use untested::{IsSome, encoded, ending, ending_mut, nonzero, proved, within};
