//! What the test programs share: random numbers, what is drawn from them, the proved
//! library's calls beside the twin's, and the frame of a comparison.

// The frame of a program.
pub mod comparison;
pub mod counts;
pub mod random;
pub mod text;
pub mod worked_out;

// The two sides, and what is lent to them.
pub mod guarded;
pub mod library;
pub mod numbers;
pub mod sides;

// What is drawn: records, frames for them, journals, and damage to all of these.
pub mod bad_heads;
pub mod broken_lines;
pub mod broken_records;
pub mod damage;
pub mod journal_lines;
pub mod journals;
pub mod received_frames;
pub mod records;
pub mod under_way;

// For `bench/`.
pub mod measure;
