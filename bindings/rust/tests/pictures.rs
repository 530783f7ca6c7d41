//! The example's PAM files and its change between plain and premultiplied colours.

#[path = "../examples/pam/mod.rs"]
mod pam;

use pam::{premultiply, read, unpremultiply, write, Picture};

#[test]
fn files_come_back() {
    let picture = Picture { width: 2, height: 3, pixels: (0..24).collect() };
    assert_eq!(read(&write(&picture)), Ok(picture));
}

#[test]
fn other_files_are_refused() {
    let good = write(&Picture { width: 1, height: 1, pixels: vec![0; 4] });
    let text = String::from_utf8(good.clone()).expect("ascii");
    assert!(read(&good[..good.len() - 1]).is_err());
    assert!(read(text.replace("P7", "P6").as_bytes()).is_err());
    assert!(read(text.replace("255", "65535").as_bytes()).is_err());
    assert!(read(text.replace("ENDHDR", "").as_bytes()).is_err());
    assert!(read(text.replace("WIDTH 1", "WIDTH 18446744073709551615").as_bytes()).is_err());
    assert!(read(text.replace("P7\n", "P7\n# a comment\n").as_bytes()).is_ok());
}

#[test]
fn colours_by_document_01() {
    assert_eq!(premultiply(&[255, 0, 128, 128]), [128, 0, 64, 128]);
    assert_eq!(unpremultiply(&[1, 3, 0, 3]), [85, 255, 0, 3]);
    assert_eq!(unpremultiply(&[0, 0, 0, 0]), [0, 0, 0, 0]);
}

/// A colour that was premultiplied is the same after there and back again.
#[test]
fn premultiplied_colours_stay() {
    for alpha in 0..=255u8 {
        for colour in 0..=alpha {
            let pixel = [colour, 0, 0, alpha];
            assert_eq!(premultiply(&unpremultiply(&pixel)), pixel);
        }
    }
}
