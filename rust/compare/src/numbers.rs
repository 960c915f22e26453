//! Numbers about the limits of settings.

/// Within the limit, just past it, and past it by what a narrower number would lose.
pub const LEVELS: [u64; 26] = [
    0,
    1,
    2,
    63,
    64,
    65,
    127,
    128,
    129,
    130,
    255,
    256,
    257,
    384,
    1 << 16,
    (1 << 16) + 1,
    (1 << 31) - 1,
    1 << 31,
    (1 << 32) - 1,
    1 << 32,
    (1 << 32) + 1,
    (1 << 32) + 128,
    1 << 63,
    (1 << 63) + 1,
    u64::MAX - 1,
    u64::MAX,
];

/// As `LEVELS`, of numbers that stand for yes or no.
pub const SWITCHES: [u32; 14] = [
    0,
    1,
    2,
    3,
    127,
    128,
    255,
    256,
    257,
    1 << 16,
    (1 << 16) + 1,
    1 << 31,
    (1 << 31) + 1,
    u32::MAX,
];
