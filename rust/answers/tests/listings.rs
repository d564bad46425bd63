//! What the stored, long and random listings cover.
use answers::listings::{long, random, stored, Listing};
use answers::message::CODES;
use answers::packcheck::packcheck;
use std::collections::HashSet;

fn outputs(listings: &[Listing]) -> Vec<String> {
    listings.iter().map(|(_, input)| packcheck(input)).collect()
}

#[test]
fn no_stored_listing_twice() {
    let listings = stored();
    let names: HashSet<_> = listings.iter().map(|(name, _)| name).collect();
    let inputs: HashSet<_> = listings.iter().map(|(_, input)| input).collect();
    assert_eq!([names.len(), inputs.len()], [listings.len(); 2]);
}

#[test]
fn stored_listings_have_every_answer() {
    let outputs = outputs(&stored());
    for refusal in [1, 4, 5, 6, 8, 9, 10] {
        assert!(outputs.iter().any(|output| output.starts_with(&format!("refused {refusal} "))), "{refusal}");
    }
    for verdict in ["ValidForParser", "Incomplete", "Invalid"] {
        assert!(outputs.iter().any(|output| output.contains(&format!("verdict findings\n{verdict} "))), "{verdict}");
    }
    for code in CODES {
        assert!(outputs.iter().any(|output| output.contains(&format!(" {code} "))), "{code}");
    }
}

#[test]
fn longest_listing() {
    let (_, input) = long().into_iter().find(|(name, _)| name == "longest").expect("the longest listing");
    assert_eq!(input.len(), 22_032);
    assert_eq!(packcheck(&input), "refused 4 0\n");
}

#[test]
fn random_listings_are_the_seeds() {
    assert_eq!(random(7, 100), random(7, 100));
    assert_ne!(random(7, 100), random(8, 100));
}

#[test]
fn half_of_the_random_listings_are_judged() {
    let outputs = outputs(&random(7, 1_000));
    let judged = outputs.iter().filter(|output| output.starts_with("row ")).count();
    assert!((500..800).contains(&judged), "{judged}");
}
