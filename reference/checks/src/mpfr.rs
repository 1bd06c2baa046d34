//! MPFR as an outside judge: precision 53, the exponents of f64, subnormal results rounded once.

use std::ffi::{c_int, c_long, c_void};

#[repr(C)]
struct Number {
    precision: c_long,
    sign: c_int,
    exponent: c_long,
    digits: *mut c_void,
}

#[link(name = "mpfr")]
unsafe extern "C" {
    fn mpfr_init2(x: *mut Number, precision: c_long);
    fn mpfr_clear(x: *mut Number);
    fn mpfr_set_d(x: *mut Number, value: f64, rounding: c_int) -> c_int;
    fn mpfr_get_d(x: *const Number, rounding: c_int) -> f64;
    fn mpfr_sqrt(result: *mut Number, x: *const Number, rounding: c_int) -> c_int;
    fn mpfr_hypot(result: *mut Number, a: *const Number, b: *const Number, rounding: c_int) -> c_int;
    fn mpfr_subnormalize(x: *mut Number, ternary: c_int, rounding: c_int) -> c_int;
    fn mpfr_set_emin(exponent: c_long) -> c_int;
    fn mpfr_set_emax(exponent: c_long) -> c_int;
}

/// To nearest, ties to even.
const NEAREST: c_int = 0;

/// Two operands and a result. MPFR's range of exponents belongs to the thread that made it.
pub struct Mpfr([Box<Number>; 3]);

impl Default for Mpfr {
    fn default() -> Mpfr {
        let number = || {
            let mut number = Box::new(Number { precision: 0, sign: 0, exponent: 0, digits: std::ptr::null_mut() });
            // SAFETY: init2 fills a number that nothing else refers to.
            unsafe { mpfr_init2(&mut *number, 53) };
            number
        };
        // SAFETY: both exponents lie in MPFR's range.
        unsafe {
            mpfr_set_emin(-1073);
            mpfr_set_emax(1024);
        }
        Mpfr([number(), number(), number()])
    }
}

impl Mpfr {
    pub fn sqrt(&mut self, x: f64) -> f64 {
        let [a, _, result] = &mut self.0;
        // SAFETY (here and below): the numbers are initialised and distinct.
        unsafe {
            mpfr_set_d(&mut **a, x, NEAREST);
            let ternary = mpfr_sqrt(&mut **result, &**a, NEAREST);
            mpfr_subnormalize(&mut **result, ternary, NEAREST);
            mpfr_get_d(&**result, NEAREST)
        }
    }

    pub fn hypot(&mut self, x: f64, y: f64) -> f64 {
        let [a, b, result] = &mut self.0;
        unsafe {
            mpfr_set_d(&mut **a, x, NEAREST);
            mpfr_set_d(&mut **b, y, NEAREST);
            let ternary = mpfr_hypot(&mut **result, &**a, &**b, NEAREST);
            mpfr_subnormalize(&mut **result, ternary, NEAREST);
            mpfr_get_d(&**result, NEAREST)
        }
    }
}

impl Drop for Mpfr {
    fn drop(&mut self) {
        for number in &mut self.0 {
            unsafe { mpfr_clear(&mut **number) };
        }
    }
}
