//! The operations on pairs with Rust's u128, in the plainest way: what the Rattle program is timed against.

pub type Pair = (u64, u64);
pub type Answer = Result<Pair, u8>;

const UNIT: u64 = 1_000_000_000_000;
const ONE: Pair = (UNIT, UNIT);
/// The fifth power of this number of trillionths is above 2^64 - 1.
const LIMIT: u64 = 28_391_212_775_636;

fn ordered(p: Pair) -> Result<(), u8> {
    if p.1 < p.0 {
        return Err(61);
    }
    Ok(())
}

fn fitting(low: u128, high: u128) -> Answer {
    if high > u64::MAX as u128 {
        return Err(64);
    }
    Ok((low as u64, high as u64))
}

fn wide(a: u64, b: u64) -> u128 {
    a as u128 * b as u128
}

pub fn sum(p: Pair, q: Pair) -> Answer {
    ordered(p)?;
    ordered(q)?;
    fitting(p.0 as u128 + q.0 as u128, p.1 as u128 + q.1 as u128)
}

pub fn product(p: Pair, q: Pair) -> Answer {
    ordered(p)?;
    ordered(q)?;
    fitting(wide(p.0, q.0) / UNIT as u128, (wide(p.1, q.1) + (UNIT - 1) as u128) / UNIT as u128)
}

pub fn quotient(p: Pair, q: Pair) -> Answer {
    ordered(p)?;
    ordered(q)?;
    if q.0 == 0 {
        return Err(62);
    }
    fitting(wide(p.0, UNIT) / q.1 as u128, (wide(p.1, UNIT) + (q.0 - 1) as u128) / q.0 as u128)
}

fn times(p: Pair, n: u64) -> Answer {
    ordered(p)?;
    fitting(wide(p.0, n), wide(p.1, n))
}

/// The least s with s·s at least n, from the greatest with s·s at most n - 1.
fn root_up(n: u128, whole_root: fn(u128) -> u128) -> u64 {
    if n == 0 {
        return 0;
    }
    whole_root(n - 1) as u64 + 1
}

/// The root by u128::isqrt.
pub fn root(p: Pair) -> Answer {
    ordered(p)?;
    Ok((wide(p.0, UNIT).isqrt() as u64, root_up(wide(p.1, UNIT), u128::isqrt)))
}

/// The greatest s with s·s at most n, by Newton's steps from above.
fn newton(n: u128) -> u128 {
    if n == 0 {
        return 0;
    }
    let mut s = 1u128 << (128 - n.leading_zeros()).div_ceil(2);
    loop {
        let next = (s + n / s) / 2;
        if s <= next {
            return s;
        }
        s = next;
    }
}

pub fn root_by_newton(p: Pair) -> Answer {
    ordered(p)?;
    Ok((newton(wide(p.0, UNIT)) as u64, root_up(wide(p.1, UNIT), newton)))
}

fn fifth_power_up(s: u64) -> u128 {
    let mut power = s as u128;
    for _ in 0..4 {
        power = (power * s as u128).div_ceil(UNIT as u128);
    }
    power
}

fn fifth_power_down(s: u64) -> u128 {
    let mut power = s as u128;
    for _ in 0..4 {
        power = power * s as u128 / UNIT as u128;
    }
    power
}

/// The fifth root by bisection.
pub fn fifth_root(p: Pair) -> Answer {
    ordered(p)?;
    let (mut low, mut above) = (0, LIMIT);
    while 1 < above - low {
        let s = low + (above - low) / 2;
        if fifth_power_up(s) <= p.0 as u128 {
            low = s;
        } else {
            above = s;
        }
    }
    if p.1 == 0 {
        return Ok((low, 0));
    }
    let (mut below, mut high) = (0, LIMIT);
    while 1 < high - below {
        let s = below + (high - below) / 2;
        if p.1 as u128 <= fifth_power_down(s) {
            high = s;
        } else {
            below = s;
        }
    }
    Ok((low, high))
}

/// The plus terms and the minus terms, each with its two ends; the last term is the seventeenth, plus, and for the high end alone.
fn alternating(terms: impl Iterator<Item = (u128, u128)>) -> Pair {
    let (mut plus, mut minus) = ((0, 0), (0, 0));
    for (j, (low, high)) in terms.enumerate() {
        if j == 16 {
            plus.1 += high;
        } else if j % 2 == 0 {
            plus = (plus.0 + low, plus.1 + high);
        } else {
            minus = (minus.0 + low, minus.1 + high);
        }
    }
    (u128::saturating_sub(plus.0, minus.1) as u64, u128::saturating_sub(plus.1, minus.0) as u64)
}

fn arc(t: Pair) -> Answer {
    ordered(t)?;
    if UNIT < t.1 {
        return Err(63);
    }
    let unit = UNIT as u128;
    let (square_low, square_high) = (wide(t.0, t.0) / unit, wide(t.1, t.1).div_ceil(unit));
    let (mut low, mut high) = (t.0 as u128, t.1 as u128);
    let terms = (0..17).map(|j| {
        let term = (low / (2 * j + 1), high.div_ceil(2 * j + 1));
        low = low * square_low / unit;
        high = (high * square_high).div_ceil(unit);
        term
    });
    Ok(alternating(terms))
}

fn half_angle(t: Pair) -> Answer {
    let hypotenuse = root(sum(ONE, product(t, t)?)?)?;
    quotient(t, sum(ONE, hypotenuse)?)
}

pub fn atan(t: Pair) -> Answer {
    ordered(t)?;
    times(arc(half_angle(half_angle(t)?)?)?, 4)
}

pub fn exp_neg(y: Pair) -> Answer {
    ordered(y)?;
    if 256 * UNIT <= y.1 {
        return Err(63);
    }
    if 20 * UNIT <= y.0 {
        return Ok((0, 2_062));
    }
    let unit = UNIT as u128;
    let (z_low, z_high) = (y.0 as u128 / 256, (y.1 as u128).div_ceil(256));
    let (mut low, mut high) = (unit, unit);
    let terms = (1..18).map(|j| {
        let term = (low, high);
        low = low * z_low / unit / j;
        high = (high * z_high).div_ceil(unit).div_ceil(j);
        term
    });
    let mut power = alternating(terms);
    for _ in 0..8 {
        power = product(power, power)?;
    }
    Ok(power)
}
