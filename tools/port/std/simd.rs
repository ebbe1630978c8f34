//! Vectors of lanes, as arrays over which loops go lane by lane.
use std::ops::{Add, BitAnd, BitOr, BitXor, Div, Mul, Shl, Shr, Sub};

#[derive(Clone, Copy, Debug, PartialEq, Eq)]
pub struct Simd<T, const N: usize>(pub [T; N]);
#[derive(Clone, Copy, Debug, PartialEq, Eq)]
pub struct Mask<const N: usize>(pub u64);

impl<T: Copy + Default + PartialOrd, const N: usize> Simd<T, N> {
    #[inline(always)]
    pub fn splat(item: T) -> Self {
        Simd([item; N])
    }
    #[inline(always)]
    pub fn from_array(items: [T; N]) -> Self {
        Simd(items)
    }
    #[inline(always)]
    pub fn to_array(self) -> [T; N] {
        self.0
    }
    #[inline(always)]
    pub fn from_slice(items: &[T]) -> Self {
        let mut made = [T::default(); N];
        made.copy_from_slice(&items[..N]);
        Simd(made)
    }
    #[inline(always)]
    pub fn copy_to_slice(self, to: &mut [T]) {
        to[..N].copy_from_slice(&self.0)
    }
    #[inline(always)]
    pub fn shuffle<const M: usize>(self, other: Self, places: [usize; M]) -> Simd<T, M> {
        let mut made = [T::default(); M];
        for lane in 0..M {
            let place = places[lane];
            made[lane] = if place < N { self.0[place] } else { other.0[place - N] };
        }
        Simd(made)
    }
}
impl<const N: usize> Simd<u8, N> {
    #[inline(always)]
    pub fn swizzle_dyn(self, places: Self) -> Self {
        let mut made = [0; N];
        for lane in 0..N {
            made[lane] = self.0.get(usize::from(places.0[lane])).copied().unwrap_or(0);
        }
        Simd(made)
    }
}
impl<const N: usize> Mask<N> {
    #[inline(always)]
    pub fn to_bitmask(self) -> u64 {
        self.0
    }
    #[inline(always)]
    pub fn select<T: Copy>(self, one: Simd<T, N>, other: Simd<T, N>) -> Simd<T, N> {
        let mut made = other.0;
        for lane in 0..N {
            if self.0 >> lane & 1 == 1 {
                made[lane] = one.0[lane];
            }
        }
        Simd(made)
    }
}
impl<const N: usize> Simd<u8, N> {
    #[inline(always)]
    fn mask_where(self, other: Self, holds: impl Fn(u8, u8) -> bool) -> Mask<N> {
        let mut bits = 0;
        for lane in 0..N {
            bits |= u64::from(holds(self.0[lane], other.0[lane])) << lane;
        }
        Mask(bits)
    }
    #[inline(always)]
    pub fn simd_eq(self, other: Self) -> Mask<N> {
        self.mask_where(other, |one, other| one == other)
    }
    #[inline(always)]
    pub fn simd_ne(self, other: Self) -> Mask<N> {
        self.mask_where(other, |one, other| one != other)
    }
    #[inline(always)]
    pub fn simd_lt(self, other: Self) -> Mask<N> {
        self.mask_where(other, |one, other| one < other)
    }
    #[inline(always)]
    pub fn simd_ge(self, other: Self) -> Mask<N> {
        self.mask_where(other, |one, other| one >= other)
    }
}
macro_rules! bits {
    ($($of:ident $call:ident;)*) => {$(
        impl<const N: usize> $of for Mask<N> {
            type Output = Self;
            #[inline(always)]
            fn $call(self, other: Self) -> Self {
                Mask($of::$call(self.0, other.0))
            }
        }
        impl<T: Copy + $of<Output = T>, const N: usize> $of for Simd<T, N> {
            type Output = Self;
            #[inline(always)]
            fn $call(mut self, other: Self) -> Self {
                for lane in 0..N {
                    self.0[lane] = $of::$call(self.0[lane], other.0[lane]);
                }
                self
            }
        }
    )*};
}
bits! { BitAnd bitand; BitOr bitor; BitXor bitxor; }
macro_rules! wrapping {
    ($($int:ty)*) => {$(
        impl<const N: usize> Add for Simd<$int, N> {
            type Output = Self;
            #[inline(always)]
            fn add(mut self, other: Self) -> Self {
                for lane in 0..N {
                    self.0[lane] = self.0[lane].wrapping_add(other.0[lane]);
                }
                self
            }
        }
        impl<const N: usize> Sub for Simd<$int, N> {
            type Output = Self;
            #[inline(always)]
            fn sub(mut self, other: Self) -> Self {
                for lane in 0..N {
                    self.0[lane] = self.0[lane].wrapping_sub(other.0[lane]);
                }
                self
            }
        }
        impl<const N: usize> Mul for Simd<$int, N> {
            type Output = Self;
            #[inline(always)]
            fn mul(mut self, other: Self) -> Self {
                for lane in 0..N {
                    self.0[lane] = self.0[lane].wrapping_mul(other.0[lane]);
                }
                self
            }
        }
        impl<const N: usize> Div for Simd<$int, N> {
            type Output = Self;
            #[inline(always)]
            fn div(mut self, other: Self) -> Self {
                for lane in 0..N {
                    self.0[lane] /= other.0[lane];
                }
                self
            }
        }
        impl<const N: usize> Shl for Simd<$int, N> {
            type Output = Self;
            #[inline(always)]
            fn shl(mut self, other: Self) -> Self {
                for lane in 0..N {
                    self.0[lane] = self.0[lane].wrapping_shl(other.0[lane] as u32);
                }
                self
            }
        }
        impl<const N: usize> Shr for Simd<$int, N> {
            type Output = Self;
            #[inline(always)]
            fn shr(mut self, other: Self) -> Self {
                for lane in 0..N {
                    self.0[lane] = self.0[lane].wrapping_shr(other.0[lane] as u32);
                }
                self
            }
        }
    )*};
}
wrapping! { u8 u16 u32 u64 }
macro_rules! shifts {
    ($($int:ty)*) => {$(
        impl<const N: usize> Shl<i32> for Simd<$int, N> {
            type Output = Self;
            #[inline(always)]
            fn shl(self, by: i32) -> Self {
                self << Simd::splat(by as $int)
            }
        }
        impl<const N: usize> Shr<i32> for Simd<$int, N> {
            type Output = Self;
            #[inline(always)]
            fn shr(self, by: i32) -> Self {
                self >> Simd::splat(by as $int)
            }
        }
    )*};
}
shifts! { u8 u16 u32 u64 }
macro_rules! bytes {
    ($($int:ty, $size:literal, $count:literal, $all:literal;)*) => {$(
        impl Simd<$int, $count> {
            #[inline(always)]
            pub fn to_le_bytes(self) -> Simd<u8, $all> {
                let mut made = [0; $all];
                for lane in 0..$count {
                    made[$size * lane..$size * (lane + 1)].copy_from_slice(&self.0[lane].to_le_bytes());
                }
                Simd(made)
            }
            #[inline(always)]
            pub fn from_le_bytes(bytes: Simd<u8, $all>) -> Self {
                let mut made = [0; $count];
                for lane in 0..$count {
                    made[lane] = <$int>::from_le_bytes(bytes.0[$size * lane..$size * (lane + 1)].try_into().unwrap());
                }
                Simd(made)
            }
        }
    )*};
}
bytes! { u16, 2, 8, 16; u64, 8, 2, 16; u32, 4, 4, 16; }
macro_rules! names {
    ($($name:ident $int:ty, $count:literal;)*) => {$(pub type $name = Simd<$int, $count>;)*};
}
names! {
    u8x4 u8, 4; u8x8 u8, 8; u8x16 u8, 16; u8x32 u8, 32; u8x64 u8, 64;
    u16x8 u16, 8; u32x4 u32, 4; u64x2 u64, 2; u64x4 u64, 4;
}
pub mod prelude {
    pub use super::*;
}
