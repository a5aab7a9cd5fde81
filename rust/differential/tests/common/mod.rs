//! What the tests on the published Rust share.

use differential::compare::Sides;
use model::Oracle;

/// Runs `test` on both builds of the published Rust; where its source is absent, on none.
pub fn on_each_build(test: impl Fn(&dyn Oracle)) {
    let Some(sides) = Sides::open() else { return };
    for (name, build) in sides.builds() {
        println!("the {name} build:");
        test(build);
    }
}

/// The bytes that hexadecimal digits stand for; blanks are passed over.
pub fn bytes(digits: &str) -> Vec<u8> {
    let digits: Vec<u32> = digits.chars().filter_map(|c| c.to_digit(16)).collect();
    let pairs = digits.as_chunks::<2>().0;
    pairs
        .iter()
        .map(|[high, low]| (high * 16 + low) as u8)
        .collect()
}
