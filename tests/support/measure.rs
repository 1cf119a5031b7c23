//! What the measures share.

/// Bits spread over all digits of 8 bytes.
pub fn spread(n: u64) -> u64 {
    (n + 1).wrapping_mul(0x9e37_79b9_7f4a_7c15)
}

/// `NAME OURS TWIN RATIO`, the medians of the readings of both with so many decimals.
/// Of an odd number of readings the median is one of them.
pub fn print(name: &str, readings: [Vec<f64>; 2], decimals: usize) {
    let [ours, twin] = readings.map(|mut readings| {
        readings.sort_by(f64::total_cmp);
        readings[readings.len() / 2]
    });
    let ratio = ours / twin;
    println!("{name} {ours:.decimals$} {twin:.decimals$} {ratio:.2}");
}
