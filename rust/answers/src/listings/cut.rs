//! Listings that end too early.
use super::{sample, Listing};

/// The sample cut before the newline of each line, and after each of the first five lines.
pub fn cut() -> Vec<Listing> {
    let text = sample();
    let newlines: Vec<usize> = (0..text.len()).filter(|at| text[*at] == b'\n').collect();
    let mut listings = vec![
        ("empty".to_string(), Vec::new()),
        ("newline".to_string(), b"\n".to_vec()),
        ("cut-in-1".to_string(), text[..5].to_vec()),
    ];
    for (line, newline) in newlines.iter().enumerate() {
        listings.push((format!("cut-before-newline-{}", line + 1), text[..*newline].to_vec()));
    }
    // After the sixth line, it is the listing whose seventh is missing
    for (line, newline) in newlines.iter().enumerate().take(5) {
        listings.push((format!("cut-after-{}", line + 1), text[..=*newline].to_vec()));
    }
    listings
}
