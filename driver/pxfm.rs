// pxfm's own files, unchanged, as a library of two functions. The build puts this file beside them as lib.rs.
// What they name and the tail never reaches is stubbed here.
#![allow(dead_code, unused)]
mod bits {
    pub(crate) const EXP_MASK: u64 = 0x7ff0_0000_0000_0000;
    pub(crate) fn get_exponent_f64(x: f64) -> i64 {
        ((x.to_bits() >> 52) & 0x7ff) as i64 - 1023
    }
}
mod common;
mod double_double;
mod dyadic_float;
mod rounding {
    mod round_ties_even;
    pub(crate) use round_ties_even::*;
    pub(crate) trait CpuFloor {
        fn cpu_floor(self) -> Self;
    }
    impl CpuFloor for f64 {
        fn cpu_floor(self) -> f64 {
            self.floor()
        }
    }
}
mod exponents {
    pub(crate) mod auxiliary;
    pub(crate) mod exp;
    pub(crate) use auxiliary::ldexp;
    pub(crate) use exp::{EXP_REDUCE_T0, EXP_REDUCE_T1};
    pub(crate) mod expf {
        use crate::double_double::DoubleDouble;
        pub(crate) trait ExpfBackend {
            fn round(&self, _x: f64) -> f64 {
                unreachable!()
            }
            fn fma(&self, _a: f64, _b: f64, _c: f64) -> f64 {
                unreachable!()
            }
            fn quick_mult(&self, _a: DoubleDouble, _b: DoubleDouble) -> DoubleDouble {
                unreachable!()
            }
        }
        pub(crate) struct GenericExpfBackend {}
        pub(crate) struct FmaBackend {}
        impl ExpfBackend for GenericExpfBackend {}
        impl ExpfBackend for FmaBackend {}
    }
}
mod err {
    // the interval tables, which serve only the refused ranges
    pub(crate) mod erf_poly {
        pub(crate) static ERF_POLY: [[u64; 13]; 94] = [[0; 13]; 94];
        pub(crate) static ERF_POLY_C2: [[u64; 27]; 47] = [[0; 27]; 47];
    }
    pub(crate) mod erf;
    pub(crate) mod erfc {
        include!("err/erfc.rs");
        // whether the rounding test decides, for a tail argument with a fast step
        pub(crate) fn decided(x: f64) -> bool {
            let r = erfc_asympt_fast(x);
            r.result.hi + (r.result.lo - r.err) == r.result.hi + (r.result.lo + r.err)
        }
    }
}
#[inline(never)]
pub fn f_erfc(x: f64) -> f64 {
    err::erfc::f_erfc(x)
}
#[inline(never)]
pub fn decided(x: f64) -> bool {
    err::erfc::decided(x)
}
