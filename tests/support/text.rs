//! Text as it is written by hand.

/// Lines, each with its line feed. The blanks between fields are for the reader only.
pub fn lines(lines: &[&str]) -> String {
    let lines = lines.iter().map(|line| line.replace(' ', "") + "\n");
    lines.collect()
}
