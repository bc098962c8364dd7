//! A figure as a double on one side of it, in whole numbers, rounded once. The bits are put together: no floating-point arithmetic is done, so that the
//! rounding mode of the process does not matter.

/// Words of 32 bits, the least first.
const LIMBS: usize = 48;

/// The least double that is not below digits × 10^power, or the greatest that is not above it.
pub(crate) fn of(digits: u64, power: i32, above: bool) -> f64 {
    if digits == 0 {
        return 0.0;
    }
    // Beyond these powers the figure is above every double, or below every one that is not 0.
    let power = power.clamp(-400, 309);
    // The figure is `limbs` / 2^fraction; the fraction leaves 64 bits after the divisions.
    let first = if power < 0 { (64 - power * 10 / 3) as usize / 32 + 1 } else { 0 };
    let fraction = 32 * first as i32;
    let mut limbs = [0u32; LIMBS];
    limbs[first] = digits as u32;
    limbs[first + 1] = (digits >> 32) as u32;
    let mut lost = false;
    for _ in 0..power {
        times_ten(&mut limbs);
    }
    for _ in power..0 {
        lost |= divide_by_ten(&mut limbs);
    }
    let bit = |at: i32| if at < 0 { 0 } else { limbs[at as usize / 32] >> (at % 32) & 1 };
    let top = (0..32 * LIMBS as i32).rev().find(|&at| bit(at) == 1).unwrap_or(0);
    // A double has 53 bits, and none below 2^-1074.
    let kept = (top - fraction + 1075).min(53);
    let last = top - kept + 1;
    let whole = (last..=top).rev().fold(0u64, |n, at| 2 * n + u64::from(bit(at)));
    lost |= (0..last).any(|at| bit(at) == 1);
    // The double is whole × 2^scale, and one more in its bits is the next one. The 53rd bit of `whole` adds one to the exponent that stands there.
    let scale = last - fraction;
    if scale > f64::MAX_EXP - f64::MANTISSA_DIGITS as i32 {
        return if above { f64::INFINITY } else { f64::MAX };
    }
    f64::from_bits(whole + ((scale + 1074) as u64 * (1 << 52)) + u64::from(above && lost))
}

fn times_ten(limbs: &mut [u32; LIMBS]) {
    let mut carry = 0;
    for limb in limbs {
        carry += u64::from(*limb) * 10;
        *limb = carry as u32;
        carry >>= 32;
    }
}

/// Whether something was left.
fn divide_by_ten(limbs: &mut [u32; LIMBS]) -> bool {
    let mut rest = 0;
    for limb in limbs.iter_mut().rev() {
        rest = rest << 32 | u64::from(*limb);
        *limb = (rest / 10) as u32;
        rest %= 10;
    }
    rest != 0
}
