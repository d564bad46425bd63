//! What is written reads back as it was.
use answers::calls::{calls, Calls};
use answers::families;
use answers::image::Image;
use answers::repetition::{read, write, Style};
use answers::text::{read_images, write_record};

#[test]
fn repetition() {
    let style = Style { width: 2, hex: false, repeat: true };
    for values in [vec![], vec![1, 2], vec![5; 40], (0..60).collect(), [1, 0, 2, -1].repeat(9), vec![-7, 3, 9]] {
        assert_eq!(read(&write(&values, style), 10), values);
    }
    assert_eq!(write(&[0, 1].repeat(5), style), " (0 1)*5");
    assert_eq!(write(&[0, 9, 1, 9, 2, 9, 3, 9], style), " (0 9)+(1 0)*4");
    assert_eq!(write(&[30; 4], Style { width: 1, hex: true, repeat: true }), " 0000001e*4");
}

fn reads_back(image: &Image, answers: &Calls) {
    let text = write_record(image, answers);
    let read: Vec<_> = read_images(&text).collect();
    assert_eq!(read, std::slice::from_ref(image));
    assert_eq!(&calls(&read[0]), answers);
}

#[test]
fn small_images() {
    families::small(7, &mut reads_back);
}

#[test]
fn short_codes() {
    let mut count = 0;
    families::short(&mut |image, answers| {
        count += 1;
        reads_back(image, answers);
    });
    assert_eq!(count, 1 + 14 + 14 * 14 + 14 * 14 * 14);
}
