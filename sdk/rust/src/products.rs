//! Products of 128 bits that are divided.

/// The product of two numbers, divided by a third one, rounded down: what somebody gets. `None` if the divisor is 0, or if the result
/// is 2^64 or more.
pub const fn mul_div_down(one: u64, other: u64, divisor: u64) -> Option<u64> {
    match mul_div(one, other, divisor) {
        Some((quotient, _)) => Some(quotient),
        None => None,
    }
}

/// As [`mul_div_down`], rounded up: what somebody owes.
pub const fn mul_div_up(one: u64, other: u64, divisor: u64) -> Option<u64> {
    match mul_div(one, other, divisor) {
        Some((quotient, false)) => Some(quotient),
        Some((quotient, true)) => quotient.checked_add(1),
        None => None,
    }
}

/// The quotient, and whether something is left over: long division by digits of 16 bits (Knuth, The Art of Computer Programming,
/// 4.3.1, algorithm D). Rust's own division of 128 bits costs several times as much.
const fn mul_div(one: u64, other: u64, divisor: u64) -> Option<(u64, bool)> {
    let product = one as u128 * other as u128;
    let (mut low, mut left) = (product as u64, (product >> 64) as u64);
    if left >= divisor {
        return None; // a divisor of 0 too
    }
    let shift = divisor.leading_zeros();
    let divisor = divisor << shift;
    if shift != 0 {
        left = left << shift | low >> (64 - shift);
        low <<= shift;
    }
    let (high_divisor, low_divisor) = ((divisor >> 32) as u32, divisor as u32);
    let mut quotient = 0;
    let mut place = 0;
    while place < 4 {
        // The highest bit of the divisor is set, so the guess is too large by 2 at most.
        let mut guess = match ((left >> 32) as u32).checked_div(high_divisor >> 16) {
            Some(guess) => guess,
            None => return None, // it is not 0, which the compiler does not see
        };
        if guess > 0xffff {
            guess = 0xffff;
        }
        let lowest = (left << 16) as u32 | (low >> 48) as u32;
        let taken = guess as u64 * low_divisor as u64;
        let (mut lowest, borrow) = lowest.overflowing_sub(taken as u32);
        let more = guess as u64 * high_divisor as u64 + (taken >> 32) + borrow as u64;
        let mut high = (left >> 16).wrapping_sub(more);
        while high >> 63 != 0 {
            guess -= 1;
            let (sum, carry) = lowest.overflowing_add(low_divisor);
            lowest = sum;
            high = high.wrapping_add(high_divisor as u64 + carry as u64);
        }
        left = high << 32 | lowest as u64;
        low <<= 16;
        quotient = quotient << 16 | guess as u64;
        place += 1;
    }
    Some((quotient, left != 0))
}
