//! A run of the comparison over all kinds of images.
use crate::case::Case;
use crate::comparer::{Comparer, Difference};
use crate::kinds::{each_image, Scale, KINDS};
use crate::library::{Archive, Library};
use crate::reduce::reduce;
use crate::tally::{calls_made, missing, Tally};
use answers::calls::calls;
use answers::image::Image;
use answers::text::write_record;

/// Differing images that are reduced and shown; all are counted.
const MOST_SHOWN: u64 = 10;

/// The first difference of an image, with buffers lent in every way.
fn difference(library: &mut dyn Library, image: &Image) -> Option<Difference> {
    let case = Case::new(image.clone());
    let buffers = case.all_buffers();
    Comparer::default().compare(library, &case, &buffers, 0)
}

/// A differing image as small as it can be made, in the format of tests/answers with luad's answers.
fn show(library: &mut dyn Library, kind: usize, case: &Case, found: &Difference) -> String {
    let mut image = Image { buffers: found.buffers, ..case.image.clone() };
    image.label = format!("{}-1", KINDS[kind].0.replace(' ', "-"));
    let mut image = reduce(image, &mut |image| difference(library, image).is_some());
    let found = difference(library, &image).unwrap_or_else(|| found.clone());
    image.buffers = found.buffers;
    format!("differs: {found}\n{}", write_record(&image, &calls(&image)))
}

/// Makes the run, prints its counts, and says whether nothing differs and nothing is missing.
pub fn run(scale: Scale, seed: u64) -> bool {
    let mut library = Archive;
    let (mut comparer, mut tally) = (Comparer::default(), Tally::default());
    each_image(scale, seed, &mut |kind, image| {
        let case = Case::new(image);
        let found = comparer.compare(&mut library, &case, &case.buffers(tally.images), tally.images);
        tally.add(kind, &case);
        if let Some(found) = found {
            tally.differing += 1;
            if tally.differing <= MOST_SHOWN {
                println!("{}", show(&mut library, kind, &case, &found));
            }
        }
    });
    println!("{tally}\n{}", calls_made(&comparer));
    let missing = missing(&tally, &comparer);
    missing.iter().for_each(|name| println!("never: {name}"));
    println!("{} images, {} differ", tally.images, tally.differing);
    tally.differing == 0 && missing.is_empty()
}

#[cfg(test)]
mod tests {
    use super::*;
    use answers::families::random::sources;
    use answers::image::{image, Image};
    use answers::rng::Rng;
    use archive::Call;

    /// The archive with a fault: the first diagnostic's value is wrong if its code is 4.
    struct Faulty;

    impl Library for Faulty {
        fn call(&mut self, call: Call, image: &Image, roles: &mut [u8], own: &mut [u8]) -> u64 {
            let result = Archive.call(call, image, roles, own);
            if call == Call::Check && result as u32 > 0 && result >> 32 & 0xff == 0 && own[8] == 4 {
                own[12] ^= 1;
            }
            result
        }
    }

    #[test]
    fn a_fault_is_shown_by_a_small_image() {
        let mut rng = Rng::new(5);
        let mut shown = 0;
        while shown < 5 {
            let case = Case::new(image(&sources(&mut rng, 3, 8)));
            let buffers = case.buffers(0);
            assert_eq!(Comparer::default().compare(&mut Archive, &case, &buffers, 0), None);
            let Some(found) = Comparer::default().compare(&mut Faulty, &case, &buffers, 0) else { continue };
            let text = show(&mut Faulty, 0, &case, &found);
            assert!(text.contains("\ntable 20 0 1 0 0 0\nwords 4 0000"), "{text}");
            shown += 1;
        }
    }
}
