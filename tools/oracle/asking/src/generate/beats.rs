//! Questions 01 to 07: beats and their arithmetic, with sums, products and orders at and beside their limits.

use super::rng::Rng;
use super::write::Asked;
use tono_core::units::Beat;

fn gcd(a: u64, b: u64) -> u64 {
    if b == 0 { a } else { gcd(b, a % b) }
}

/// A beat of this value, in lowest terms; a denominator of 0 counts as 1.
pub fn reduced(num: i64, den: u32) -> Beat {
    let den = den.max(1);
    let g = gcd(num.unsigned_abs(), u64::from(den)) as i128;
    Beat { num: (i128::from(num) / g) as i64, den: (i128::from(den) / g) as u32 }
}

/// A beat with this denominator, and a numerator at this one or near it.
fn coprime(num: i64, den: u32) -> Beat {
    let den = den.max(1);
    let step = if num > 0 { -1 } else { 1 };
    let mut near = num;
    while gcd(near.unsigned_abs(), u64::from(den)) != 1 {
        near += step;
    }
    Beat { num: near, den }
}

/// A beat in lowest terms.
pub fn beat(r: &mut Rng) -> Beat {
    match r.below(10) {
        0 => Beat { num: 0, den: 1 },
        1 => Beat { num: r.between(-40, 40), den: 1 },
        2 | 3 => reduced(r.between(-200, 200), r.between(1, 64) as u32),
        4 => Beat { num: r.i64(), den: 1 },
        5 => reduced(r.i64(), 1 << r.below(32)),
        6 => coprime(r.between(-5, 5), r.u32()),
        7 => coprime(r.pick(&[i64::MIN, i64::MAX]), r.u32()),
        _ => reduced(r.i64(), r.u32()),
    }
}

/// Numbers that are no beat.
pub fn no_beat(r: &mut Rng) -> Beat {
    let good = beat(r);
    match r.below(6) {
        0 => Beat { num: good.num, den: 0 },
        1 => Beat { num: 0, den: r.u32().max(2) },
        2 => Beat { num: 0, den: 0 },
        3 => Beat { num: i64::MIN >> r.below(30), den: 2 << r.below(31) },
        4 => {
            let k = r.between(2, 9);
            Beat { num: (good.num >> 8) * k, den: (good.den >> 8).max(1) * k as u32 }
        }
        _ => {
            let den = r.u32().max(2);
            Beat { num: i64::from(den) * r.between(-9, 9), den }
        }
    }
}

/// A beat, and once in a while numbers that are none.
pub fn any_beat(r: &mut Rng) -> Beat {
    if r.once_in(24) { no_beat(r) } else { beat(r) }
}

/// Two denominators whose product is at or beside 2^32.
fn full_dens(r: &mut Rng) -> (u32, u32) {
    let a = match r.below(3) {
        0 => r.between(65_533, 65_540) as u32,
        _ => (r.bits(32) as u32).max(2),
    };
    let b = ((1u64 << 32) / u64::from(a)) as i64 + r.between(-1, 1);
    (a, b.clamp(1, i64::from(u32::MAX)) as u32)
}

/// A whole number beside an end of i64, on either side of it.
fn at_end(r: &mut Rng) -> i128 {
    let beside = i128::from(r.between(-2, 2));
    if r.once_in(2) { (1 << 63) + beside } else { -(1 << 63) + beside }
}

fn clamped(x: i128) -> i64 {
    x.clamp(i128::from(i64::MIN), i128::from(i64::MAX)) as i64
}

/// Two beats whose sum, before it is reduced, has a numerator at or beside an end of i64, or is small though its
/// products are not.
fn full_sum(r: &mut Rng) -> (Beat, Beat) {
    let (da, db) = (r.between(1, 9) as u32, if r.once_in(2) { 1 } else { r.between(1, 9) as u32 });
    let target = if r.once_in(3) { i128::from(r.between(-9, 9)) } else { at_end(r) };
    let half = if r.once_in(2) { target / 2 / i128::from(db) } else { i128::from(r.i64()) };
    let a = coprime(clamped(half + i128::from(r.between(-3, 3))), da);
    let left = target - i128::from(a.num) * i128::from(db);
    let num = clamped(left / i128::from(da));
    (a, if gcd(num.unsigned_abs(), u64::from(db)) == 1 { Beat { num, den: db } } else { reduced(num, db) })
}

/// Two beats to be added.
fn summands(r: &mut Rng) -> (Beat, Beat) {
    match r.below(8) {
        0 | 1 => (any_beat(r), any_beat(r)),
        2 | 3 => {
            let (a, b) = full_dens(r);
            (coprime(r.between(-9, 9), a), coprime(r.between(-9, 9), b))
        }
        4 => {
            let den = if r.once_in(2) { r.between(65_534, 65_537) as u32 } else { r.u32().max(1) };
            (coprime(r.between(-9, 9), den), coprime(r.between(-9, 9), den))
        }
        _ => full_sum(r),
    }
}

/// A beat and a factor whose product is at or beside a limit.
fn factors(r: &mut Rng) -> (Beat, i64, u32) {
    match r.below(9) {
        0 => (any_beat(r), r.i64(), r.u32()),
        1 => (any_beat(r), r.between(-9, 9), r.between(0, 9) as u32),
        2 => {
            let (a, b) = full_dens(r);
            (coprime(r.between(-9, 9), a), r.between(-9, 9), b)
        }
        3 => (beat(r), r.between(-99, 99), 0),
        4 => {
            let a = beat(r);
            (a, i64::from(a.den), a.num.unsigned_abs().min(u64::from(u32::MAX)) as u32)
        }
        5 => (
            Beat { num: r.pick(&[i64::MIN, i64::MIN + 1, i64::MAX]), den: 1 },
            r.pick(&[-1, 1, 0, 2, -2]),
            r.pick(&[1, 2]),
        ),
        6 => {
            // divisors of 2^63 - 1, of 2^63 and of 2^63 + 1, so that the product is exactly beside an end
            let (target, divisor) = r.pick(&[
                ((1i128 << 63) - 1, 7),
                ((1 << 63) - 1, 649_657),
                ((1 << 63) - 1, 1),
                (1 << 63, 2),
                (1 << 63, 1 << 31),
                (1 << 63, 1 << 61),
                ((1 << 63) + 1, 27),
                ((1 << 63) + 1, 77_158_673_929),
            ]);
            let (num, sign) = ((target / divisor) as i64, r.pick(&[-1, 1]));
            let (num, factor) = if r.once_in(2) { (num, divisor as i64) } else { (divisor as i64, num) };
            (Beat { num, den: 1 }, factor * sign, r.pick(&[0, 1, 2, 3]))
        }
        _ => {
            let factor = clamped(i128::from(r.bits(63).max(1)) * i128::from(r.pick(&[-1i64, 1])));
            let num = clamped(at_end(r) / i128::from(factor) + i128::from(r.between(-1, 1)));
            (reduced(num, r.pick(&[1, 1, 2, 3, 64])), factor, r.pick(&[1, 1, 2, 3]))
        }
    }
}

/// Two beats that are equal or nearly so.
fn compared(r: &mut Rng) -> (Beat, Beat) {
    let a = beat(r);
    match r.below(8) {
        0 | 1 => (any_beat(r), any_beat(r)),
        2 => (a, a),
        3 => (a, reduced(a.num.wrapping_neg(), a.den)),
        4 => (a, coprime(a.num.saturating_add(r.between(-1, 1)), a.den)),
        5 => {
            let k = ((1u64 << 32) / u64::from(a.den)).clamp(2, 1 << 20) as i128 - 1;
            let num = clamped(i128::from(a.num) * k + i128::from(r.between(-1, 1)));
            (a, reduced(num, (u128::from(a.den) * k as u128).min(u128::from(u32::MAX)) as u32))
        }
        6 => {
            let (n, d) = (r.bits(62) as i64, (r.bits(32) as u32).max(2));
            (coprime(n, d), coprime(clamped(i128::from(n) * i128::from(d - 1) / i128::from(d)), d - 1))
        }
        _ => {
            // 1/d steps on either side of a number: their cross products differ by little
            let (n, d) = (r.between(-99, 99), r.between(2, 99) as u32);
            (coprime(n, d), coprime(n + r.between(-1, 1), d + 1))
        }
    }
}

/// The numbers of `Beat::new`, of which any are taken.
fn any_numbers(r: &mut Rng) -> (i64, u32) {
    match r.below(8) {
        0 => (r.i64(), 0),
        1 => (0, r.u32()),
        2 => {
            let k = r.bits(31).max(1) as i64;
            (k.wrapping_mul(r.between(-9, 9)), (k as u32).wrapping_mul(r.between(1, 9) as u32))
        }
        3 => (i64::MIN >> r.below(63), 1 << r.below(32)),
        4 => {
            // neighbours in Fibonacci's row take the most remainders
            let (mut a, mut b) = (1i64, 1i64);
            for _ in 0..r.below(45) {
                (a, b) = (b, a + b);
            }
            if r.once_in(2) { (b, a as u32) } else { (-a, b.min(i64::from(u32::MAX)) as u32) }
        }
        5 => {
            let den = r.u32();
            (i64::from(den).wrapping_mul(r.i64()), den)
        }
        _ => (r.i64(), r.u32()),
    }
}

pub fn question(op: u32, r: &mut Rng) -> Asked {
    let asked = Asked::default();
    match op {
        0x01 => {
            let (num, den) = any_numbers(r);
            asked.i64(num).u32(den)
        }
        0x02 | 0x03 => {
            let (a, mut b) = summands(r);
            if op == 0x03 {
                b.num = b.num.checked_neg().unwrap_or(b.num);
            }
            let (a, b) = if r.once_in(4) { (b, a) } else { (a, b) };
            asked.beat(a).beat(b)
        }
        0x04 => {
            let (a, num, den) = factors(r);
            asked.beat(a).i64(num).u32(den)
        }
        0x05 => {
            let (a, num, _) = factors(r);
            asked.beat(a).i64(num)
        }
        0x06 => {
            let (a, b) = compared(r);
            let (a, b) = if r.once_in(2) { (b, a) } else { (a, b) };
            asked.beat(a).beat(b)
        }
        0x07 => {
            let wide = r.pick(&[53, 54, 55, 62, 63]);
            let num = (1i64 << wide).wrapping_add(r.between(-5, 5) << r.below(11));
            let a = match r.below(4) {
                0 => reduced(num, 1),
                1 => reduced(-num.max(1), r.u32()),
                2 => coprime(r.next() as i64, r.u32()),
                _ => any_beat(r),
            };
            asked.beat(a)
        }
        _ => unreachable!("op {op:02x}"),
    }
}
