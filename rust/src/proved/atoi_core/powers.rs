/* Made by .ci/translate from crates/atoi_core/src/powers.rt. Do not edit. */ //! Powers of ten from a table.
// ghost use Rattle.std.specs.Prelude.{◌≡◌, ◌+◌, ◌*◌, ◌^◌, ◌≤◌};

// Indexed by the exponent.
const POWERS: [u64; 17] = [
    1,
    10,
    100,
    1_000,
    10_000,
    100_000,
    1_000_000,
    10_000_000,
    100_000_000,
    1_000_000_000,
    10_000_000_000,
    100_000_000_000,
    1_000_000_000_000,
    10_000_000_000_000,
    100_000_000_000_000,
    1_000_000_000_000_000,
    10_000_000_000_000_000,
];

/// Returns ten to the power of `digits`, which is at most 16.
#[inline] pub fn power_of_ten(digits: u32) -> u64
    // requires { digits ≤ 16 }
    // ensures power { result ≡ 10 ^ digits }
    // ensures most { result ≤ 10000000000000000 }
    // ensures few { digits ≤ 8 → result ≤ 100000000 }
{
    POWERS[digits as usize]
}

/// Returns the number of a row of digits that spells `high`, followed by at most 16 more `digits`
/// that spell `low`.
#[inline] pub fn append_digits(high: u64, digits: u32, low: u64) -> u128
    // requires { digits ≤ 16 }
    // ensures { result ≡ high * 10 ^ digits + low }
{
    u128::from(high) * u128::from(power_of_ten(digits)) + u128::from(low)
}
