//! Images.

use crate::common::*;
use shim_model::answer::Answer;
use shim_model::image::{check, renew_check, BLOCK};
use shim_model::{calls, image};

fn image_of(way: u64, upstream: u64, target: u64) -> Vec<u8> {
    let (answer, image) = generated(way, &builtin_text(upstream), &builtin_text(target));
    assert_eq!(answer, done(image.len(), 0, 0));
    image
}

fn tso_on_arm() -> Vec<u8> {
    image_of(1, 1, 15)
}

fn read(image: &[u8]) -> Answer {
    called(ROOM, |out| calls::image_read(image, out).0).0
}

/// The image with bytes set and every check renewed.
fn with(mut image: Vec<u8>, bytes: &[(usize, u8)]) -> Vec<u8> {
    for (at, value) in bytes {
        image[*at] = *value;
    }
    image
        .chunks_mut(BLOCK)
        .filter(|block| block.len() == BLOCK)
        .for_each(renew_check);
    image
}

fn image_run(image: &[u8], start: u64, stream: &[u8]) -> (Answer, Vec<u8>) {
    called(ROOM, |out| calls::image_run(image, start, stream, out))
}

// ---- the layout

#[test]
fn the_image_of_tso_on_arm() {
    let mut header = vec![0, 0, 1, 1, 3, 1, 1];
    header.extend(b"TSO\0\0\0\0\0\0\0\0\0\0\0\0\0ARM");
    header.resize(CHECK_AT, 0);
    let rows: [[u8; 9]; 3] = [
        [0xFF, 1, 0xFF, 1, 0xFF, 2, 0xFF, 1, 0],
        [0, 1, 0, 1, 0, 2, 0, 1, 1],
        [0xFF, 1, 0, 1, 0, 2, 0, 1, 1],
    ];
    let mut states = vec![0, 1];
    for row in rows {
        states.extend(row);
        states.extend([0; 15]);
    }
    states.resize(CHECK_AT, 0);
    for block in [&mut header, &mut states] {
        let check = folded_check(block);
        block.extend([(check >> 8) as u8, check as u8]);
    }
    assert_eq!(tso_on_arm(), [header, states].concat());
}

const CHECK_AT: usize = 510;

/// RFC 1071 with carries folded back in one by one.
fn folded_check(bytes: &[u8]) -> u16 {
    let mut sum: u32 = 0;
    for word in bytes.chunks(2) {
        sum += u32::from(word[0]) << 8 | u32::from(word[1]);
        if sum > 0xFFFF {
            sum -= 0xFFFF;
        }
    }
    !(sum as u16)
}

#[test]
fn checks_of_known_words() {
    assert_eq!(check(&[0; 510]), 0xFFFF);
    assert_eq!(check(&[0xFF; 510]), 0);
    // The example of RFC 1071 sums to DDF2.
    assert_eq!(
        check(&[0x00, 0x01, 0xF2, 0x03, 0xF4, 0xF5, 0xF6, 0xF7]),
        !0xDDF2
    );
}

#[test]
fn the_check_is_exact() {
    // Block 0 with its number 0 and all ones elsewhere would check as 0000; FFFF for it is wrong.
    let mut block = vec![0xFF; BLOCK];
    block[..2].copy_from_slice(&[0, 0]);
    renew_check(&mut block);
    assert_eq!(block[CHECK_AT..], [0, 0]);
    assert_eq!(read(&block), refused(11, 2));
    block[CHECK_AT..].copy_from_slice(&[0xFF, 0xFF]);
    assert_eq!(read(&block), refused(10, 0));
    // An all-zero block checks as FFFF.
    let mut block = vec![0; BLOCK];
    assert_eq!(read(&block), refused(10, 0));
    block[CHECK_AT..].copy_from_slice(&[0xFF, 0xFF]);
    assert_eq!(read(&block), refused(11, 2));
}

#[test]
fn all_built_in_images_read_and_write_back() {
    for upstream in 0..16 {
        for target in 0..16 {
            for way in 0..2 {
                let image = image_of(way, upstream, target);
                let (answer, back) = called(ROOM, |out| calls::image_read(&image, out).0);
                assert_eq!((answer, &back), (done(image.len(), 0, 0), &image));
            }
        }
    }
}

#[test]
fn header_numbers() {
    let image = image_of(0, 1, 13);
    let mut out = [0; 7_168];
    let (answer, header) = calls::image_read(&image, &mut out);
    let states = u64::from(image[4]);
    assert_eq!((answer.number, header), (0, [0, states, 1, 3]));
    assert_eq!(calls::image_read(&tso_on_arm(), &mut out).1, [1, 3, 1, 1]);
    assert_eq!(calls::image_read(&[], &mut out), (refused(10, 0), [0; 4]));
    assert_eq!(calls::image_read(&image, &mut []), (refused(7, 0), [0; 4]));
}

// ---- what is barred and what is not

#[test]
fn fence_numbers_the_target_has_not() {
    assert_eq!(read(&with(tso_on_arm(), &[(514, 1)])), refused(11, 514));
    assert_eq!(read(&with(tso_on_arm(), &[(514, 0)])).number, 0);
    assert_eq!(read(&with(tso_on_arm(), &[(514, 0xFD)])), refused(11, 514));
}

#[test]
fn other_barred_bytes() {
    let rows: [(&[(usize, u8)], u64); 12] = [
        (&[(515, 3)], 515),
        (&[(514, 0xFE)], 515),
        (&[(523, 1)], 523),
        (&[(522, 3)], 522),
        (&[(514 + 3 * 24, 1)], 586),
        (&[(39, 1)], 39),
        (&[(505, 1)], 505),
        (&[(506, 1)], 506),
        (&[(509, 1)], 509),
        (&[(512 + 506, 1)], 1_018),
        (&[(2, 0)], 2),
        (&[(3, 2)], 3),
    ];
    for (bytes, place) in rows {
        assert_eq!(
            read(&with(tso_on_arm(), bytes)),
            refused(11, place),
            "{bytes:?}"
        );
    }
}

#[test]
fn what_is_not_barred() {
    let refusing = with(tso_on_arm(), &[(514, 0xFE), (515, 0)]);
    assert_eq!(read(&refusing).number, 0);
    assert_eq!(image_run(&refusing, 0, b"sl").0, done(2, 0, 1));
    assert_eq!(image_run(&refusing, 0, b"l").0, refused(6, 0));
    // A full way with another fence than the last, a machine of other states.
    let other_fence = with(image_of(1, 1, 13), &[(514, 0), (515, 0)]);
    assert_eq!(read(&other_fence).number, 0);
    let never_leaves = with(tso_on_arm(), &[(515, 0), (517, 0), (519, 0), (521, 0)]);
    assert_eq!(read(&never_leaves).number, 0);
    // A state more, all zero: fence 0 and next 0.
    let more = with(tso_on_arm(), &[(4, 4)]);
    assert_eq!(read(&more).number, 0);
    assert_eq!(image_run(&more, 3, b"l"), (done(2, 1, 0), b"0l".to_vec()));
    // The same where the target has no fence.
    let sc = image_of(0, 0, 0);
    assert_eq!((sc[4], sc[6]), (1, 0));
    assert_eq!(read(&with(sc, &[(4, 2)])), refused(11, 514 + 24));
}

#[test]
fn bytes_that_other_bytes_hang_on() {
    assert_eq!(read(&with(tso_on_arm(), &[(4, 22)])), refused(11, 4));
    assert_eq!(read(&with(tso_on_arm(), &[(4, 0)])), refused(11, 4));
    assert_eq!(
        read(&with(tso_on_arm(), &[(4, 22), (5, 17), (6, 17)])),
        refused(11, 4)
    );
    assert_eq!(
        read(&with(tso_on_arm(), &[(5, 17), (6, 17)])),
        refused(11, 5)
    );
    assert_eq!(read(&with(tso_on_arm(), &[(6, 17)])), refused(11, 6));
    assert_eq!(
        read(&with(tso_on_arm(), &[(3, 2), (4, 22)])),
        refused(11, 3)
    );
    assert_eq!(
        read(&with(tso_on_arm(), &[(2, 2), (3, 2), (4, 22)])),
        refused(11, 2)
    );
    assert_eq!(
        read(&with(tso_on_arm(), &[(5, 0)])),
        refused(11, 514 + 24 + 8)
    );
    assert_eq!(read(&with(tso_on_arm(), &[(6, 0)])), refused(11, 514 + 24));
    assert_eq!(read(&tso_on_arm()[..512]), refused(11, 4));
}

#[test]
fn name_fields() {
    let named = |at: usize, name: &[u8]| {
        let bytes: Vec<(usize, u8)> = name
            .iter()
            .enumerate()
            .map(|(index, byte)| (at + index, *byte))
            .collect();
        read(&with(tso_on_arm(), &bytes))
    };
    for at in [7, 23] {
        let from = |place| refused(11, at as u64 + place);
        assert_eq!(named(at, b"\0A-"), from(0));
        assert_eq!(named(at, b"TSO\0A"), from(4));
        assert_eq!(named(at, b"T-O"), from(1));
        assert_eq!(named(at, b"T-O\0A"), from(1));
        assert_eq!(named(at, b"TSO\0-"), from(4));
        assert_eq!(named(at, b"ABCDEFGHIJKLMNOP").number, 0);
        assert_eq!(named(at, b"ABCDEFGHIJKLMNO ").place, at as u64 + 15);
    }
}

#[test]
fn bad_blocks() {
    let image = tso_on_arm();
    assert_eq!(read(&[]), refused(10, 0));
    assert_eq!(read(&image[..100]), refused(10, 0));
    assert_eq!(read(&image[..513]), refused(10, 1));
    assert_eq!(read(&image[..1_023]), refused(10, 1));
    assert_eq!(read(&[&image[..], &[0]].concat()), refused(10, 2));
    assert_eq!(read(&[0; 7_169]), refused(1, 0));
    assert_eq!(read(&[0; 7_168]), refused(10, 0));
    // A wrong number with its check renewed; 10 anywhere goes before 11 anywhere.
    assert_eq!(read(&with(image.clone(), &[(513, 2)])), refused(10, 1));
    assert_eq!(read(&with(image.clone(), &[(0, 1)])), refused(10, 0));
    assert_eq!(
        read(&with(image.clone(), &[(2, 9), (513, 2)])),
        refused(10, 1)
    );
    let mut both = with(image, &[(513, 2)]);
    both[510] ^= 1;
    assert_eq!(read(&both), refused(10, 0));
}

#[test]
fn every_byte_changed_with_its_check_old_or_renewed() {
    let image = tso_on_arm();
    for at in 0..image.len() {
        for value in [
            0, 1, 2, 3, 4, 16, 17, 21, 22, b'A', b'_', b' ', 0x7F, 0xFD, 0xFE, 0xFF,
        ] {
            let mut changed = image.clone();
            changed[at] = value;
            if changed == image {
                continue;
            }
            assert_eq!(read(&changed), refused(10, (at / BLOCK) as u64));
            check_renewed(&with(changed, &[]), at);
        }
    }
}

/// Where it is accepted the image is written back unchanged. A fault is at the
/// changed byte, or after it where later bytes hang on it.
fn check_renewed(changed: &[u8], at: usize) {
    let (answer, back) = called(ROOM, |out| calls::image_read(changed, out).0);
    match answer.number {
        0 => assert_eq!(back, changed),
        10 => assert!(at % BLOCK < 2),
        11 => assert!(answer.place >= at as u64),
        other => panic!("refused {other}"),
    }
}

// ---- runs over an image

#[test]
fn order_of_refusals_in_an_image_run() {
    let image = tso_on_arm();
    let long = [b'x'; 4_097];
    assert_eq!(image_run(&image[..100], 9, &long).0, refused(10, 0));
    assert_eq!(image_run(&image, 3, &long).0, refused(12, 0));
    assert_eq!(image_run(&image, 256, &long).0, refused(12, 0));
    assert_eq!(image_run(&image, u64::MAX, &long).0, refused(12, 0));
    assert_eq!(image_run(&image, 2, &long).0, refused(1, 0));
    assert_eq!(image_run(&image, 2, b"lx").0, refused(4, 1));
    assert_eq!(image_run(&image, 2, b"l1x").0, refused(5, 1));
    assert_eq!(
        called(0, |out| calls::image_run(&image, 0, b"lx", out)).0,
        refused(4, 1)
    );
    assert_eq!(
        called(0, |out| calls::image_run(&image, 0, b"l", out)).0,
        refused(7, 0)
    );
}

#[test]
fn runs_from_states() {
    let image = tso_on_arm();
    assert_eq!(
        image_run(&image, 0, b"ssl0l"),
        (done(6, 2, 1), b"s0sl0l".to_vec())
    );
    assert_eq!(image_run(&image, 2, b""), (done(0, 0, 2), Vec::new()));
    assert_eq!(image_run(&image, 2, b"s0"), (done(2, 1, 1), b"0s".to_vec()));
    let longest = image_run(&image, 1, &[b'l'; 4_096]);
    assert_eq!((longest.0, longest.1.len()), (done(8_192, 4_096, 1), 8_192));
}

#[test]
fn an_image_that_fills_its_buffer_and_one_that_does_not_fit() {
    let (tso, arm) = (builtin_text(1), builtin_text(15));
    let made = |room| called(room, |out| calls::generate(1, &tso, &arm, out)).0;
    assert_eq!(made(1_024), done(1_024, 0, 0));
    assert_eq!(made(1_023), refused(7, 0));
    assert_eq!(made(0), refused(7, 0));
    assert!(image::read(&tso_on_arm()).is_ok());
}
