//! Wrong answers on the images of the quick run: each must be told from luad's, and luad's own never. One that many images
//! have told is tried no more. Large images take long, so they are tried only with wrong answers that none before has told.
use crate::case::{Case, Records};
use crate::comparer::Comparer;
use crate::kinds::{each_image, Scale, KINDS};
use crate::wrong::{variants, Flaw, Model, Variant};

/// Bytes above which an image is large.
const LARGE: usize = 100_000;

/// Images that tell a variant, after which it is tried no more.
const ENOUGH: u64 = 1000;

/// The images that told a variant from luad, and the kind of the first.
#[derive(Clone, Copy, Default)]
struct Told {
    images: u64,
    first: Option<usize>,
}

impl Told {
    fn add(&mut self, kind: usize) {
        self.images += 1;
        self.first.get_or_insert(kind);
    }
}

/// Whether a variant of luad's answer for an image differs in the comparison.
fn is_told(comparer: &mut Comparer, variant: &Variant, case: &Case, number: u64) -> bool {
    let buffers = case.buffers(number);
    let records;
    let mut model = match (&variant.flaw, &case.answer) {
        (Flaw::Protocol(flaw), _) => Model::of(case, Some(*flaw)),
        (Flaw::Answer(_), None) => return false,
        (Flaw::Answer(change), Some(right)) => {
            let mut wrong = right.clone();
            change(&case.image, &mut wrong);
            if wrong == *right {
                return false;
            }
            records = Records::of(Some(&wrong));
            Model::with(&wrong, &records)
        }
    };
    comparer.compare(&mut model, case, &buffers, number).is_some()
}

fn print(told: &[Told], variants: &[Variant]) {
    println!("{:<52}{:>10}  first in", "wrong answer", "told by");
    for (told, variant) in told.iter().zip(variants) {
        let more = if told.images == ENOUGH { "+" } else { "" };
        let first = told.first.map_or("-", |kind| KINDS[kind].0);
        println!("{:<52}{:>9}{:1}  {first}", variant.name, told.images, more);
    }
}

/// Prints how many images tell each variant, and says whether all are told and luad's own answer never is.
pub fn run(seed: u64) -> bool {
    let variants = variants();
    let mut told = vec![Told::default(); variants.len()];
    let (mut comparer, mut images, mut false_alarms) = (Comparer::default(), 0, 0);
    each_image(Scale::Quick, seed, &mut |kind, image| {
        let case = Case::new(image);
        let right = comparer.compare(&mut Model::of(&case, None), &case, &case.buffers(images), images);
        false_alarms += u64::from(right.is_some());
        let large = case.image.words.len() + case.image.table.len() > LARGE;
        for (told, variant) in told.iter_mut().zip(&variants) {
            let most = if large { 1 } else { ENOUGH };
            if told.images < most && is_told(&mut comparer, variant, &case, images) {
                told.add(kind);
            }
        }
        images += 1;
    });
    print(&told, &variants);
    let untold = told.iter().filter(|told| told.images == 0).count();
    println!("{images} images; luad's own answer differs on {false_alarms} of them");
    println!("{} wrong answers, {untold} not told", variants.len());
    untold == 0 && false_alarms == 0
}
