//! The vectors of limit_figures, with the answers of Rust's own `(size as f32 * threshold) as u64`.
//!
//!     rustc --edition 2024 -O crates/limit_figures/vectors.rs -o target/vectors && target/vectors > crates/limit_figures/stdin
//!
//! Every line has 43 bytes. A class is a line with the number of its cases and its name, then its cases: the threshold's
//! pattern, the size and the answer, in hexadecimal. The file stdout has a line for each class, on which all cases agree.

fn limit(threshold: f32, size: u64) -> u64 {
    (size as f32 * threshold) as u64
}

fn class(name: &str, cases: &[(f32, u64)]) {
    println!("{:08x} {:.<33}", cases.len(), format!("{name} "));
    for &(threshold, size) in cases {
        println!(
            "{:08x} {:016x} {:016x}",
            threshold.to_bits(),
            size,
            limit(threshold, size)
        );
    }
}

fn all(thresholds: &[f32], sizes: &[u64]) -> Vec<(f32, u64)> {
    thresholds
        .iter()
        .flat_map(|&t| sizes.iter().map(move |&s| (t, s)))
        .collect()
}

fn neighbours(bits: u32) -> [f32; 3] {
    [bits - 1, bits, bits + 1].map(f32::from_bits)
}

/// 2^power.
fn two_to(power: i32) -> f32 {
    f32::from_bits(((power + 127) as u32) << 23)
}

/// Numbers that look random and are the same in every run.
struct Xorshift(u64);

impl Xorshift {
    fn next(&mut self) -> u64 {
        self.0 ^= self.0 << 13;
        self.0 ^= self.0 >> 7;
        self.0 ^= self.0 << 17;
        self.0
    }

    /// A size of any length.
    fn size(&mut self) -> u64 {
        let word = self.next();
        word >> (self.next() % 64)
    }
}

fn main() {
    let (nan, infinity) = (f32::NAN, f32::INFINITY);

    // Document 01's figures, and their answers there.
    let figures = [
        (1.0, 16777217, 16777216),
        (1.0, 16777219, 16777220),
        (1.0, u64::MAX, u64::MAX),
        (0.5, 3, 1),
        (nan, 9, 0),
        (-2.0, 9, 0),
        (infinity, 0, 0),
        (infinity, 1, u64::MAX),
        (4.0, 10, 40),
        (4.0, 1, 4),
    ];
    for (threshold, size, answer) in figures {
        assert_eq!(limit(threshold, size), answer);
    }
    class("figures of document 01", &figures.map(|(t, s, _)| (t, s)));

    let powers: Vec<u64> = (0..64)
        .flat_map(|k| [(1 << k) - 1, 1 << k, (1 << k) + 1])
        .chain([u64::MAX])
        .collect();
    class(
        "powers of two, usual thresholds",
        &all(&[0.5, 1.0, 1.5, 4.0], &powers),
    );

    // Half way between two singles, and one to either side; the largest digits carry.
    let mut ties = Vec::new();
    for k in 1..=40 {
        for digits in [0x80_0000, 0x80_0001, 0xff_fffe, 0xff_ffff_u64] {
            let tie = (digits << k) + (1 << (k - 1));
            ties.extend([tie - 1, tie, tie + 1]);
        }
    }
    class("ties and their neighbours", &all(&[1.0], &ties));

    // Products that are about 1 and about 2^64.
    let mut edges = Vec::new();
    for k in 0..64 {
        for power in [-k, 64 - k] {
            edges.extend(neighbours(two_to(power).to_bits()).map(|t| (t, 1 << k)));
        }
    }
    class("products at 1 and at 2^64", &edges);

    let sizes: Vec<u64> = [0, 1, 2, 3, 9, 1000]
        .into_iter()
        .chain(
            [23, 24, 31, 32, 53, 63]
                .into_iter()
                .flat_map(|k| [(1 << k) - 1, (1 << k) + 1, (3 << (k - 1)) + 1]),
        )
        .chain([u64::MAX - 1, u64::MAX])
        .collect();
    let subnormal = [0x1, 0x2, 0x40_0000, 0x7f_ffff].map(f32::from_bits);
    let not_numbers = [
        0x7fc0_0000,
        0xffc0_0000,
        0x7f80_0001,
        0xff80_0001,
        0x7fff_ffff,
    ]
    .map(f32::from_bits);
    class("zeros of both signs", &all(&[0.0, -0.0], &sizes));
    class("subnormal thresholds", &all(&subnormal, &sizes));
    class(
        "tiny thresholds",
        &all(
            &[f32::MIN_POSITIVE, two_to(-64), two_to(-24), 1e-10],
            &sizes,
        ),
    );
    class(
        "thresholds about one",
        &all(&neighbours(1.0_f32.to_bits()), &sizes),
    );
    class(
        "fractions and odd ratios",
        &all(&[0.1, 0.3, 0.75, 1.1, 2.5, 3.0, 7.3, 10.0], &sizes),
    );
    class(
        "big thresholds",
        &all(
            &[two_to(24), two_to(63), two_to(64), 1e30, f32::MAX],
            &sizes,
        ),
    );
    class(
        "negative thresholds",
        &all(&[-1.0, -2.0, -0.5, -f32::MAX, -subnormal[0]], &sizes),
    );
    class("infinities", &all(&[infinity, -infinity], &sizes));
    class("not a number", &all(&not_numbers, &sizes));

    let mut random = Xorshift(0x9e37_79b9_7f4a_7c15);
    let any: Vec<_> = (0..800)
        .map(|_| (f32::from_bits(random.next() as u32), random.size()))
        .collect();
    class("any pattern, any size", &any);
    let ratios: Vec<_> = (0..800)
        .map(|_| ((random.next() % 8000) as f32 / 1000.0, random.size()))
        .collect();
    class("ratios up to 8, any size", &ratios);
}
