use super::*;
use crate::data::Pair;

fn sample() -> Settings {
    let mut settings = Settings {
        module_config: Config::from_bytes([9, 0x10, 200, 201]),
        wd_preset: 0x0102_0304,
        ..Settings::default()
    };
    for (index, kept) in settings.channels.iter_mut().enumerate() {
        let mark = index as u8 + 1;
        *kept = Kept {
            config: Config::from_bytes([mark, 0x50, mark, 0]),
            fb_preset: i32::MAX,
            out_preset: 16,
            min_current: 0x8000_0000,
            max_current: reals::ONE,
            user_reals: [mark; 8],
            maintenance: [31, 12, 93, mark],
            user_bytes: [mark; 4],
            counter: i32::MIN,
            operating: u32::MAX,
        };
    }
    let pair = |x, y| Pair { x, y };
    settings.data = KeptData {
        real_a: 0x8000_0000,
        real_b: 0x0203_0405,
        tables: [
            LookUp(std::array::from_fn(|k| pair(k as u32, 0x0100 + k as u32))),
            LookUp([pair(0xFF7F_FFFF, 0x7F7F_FFFF); 10]),
        ],
    };
    settings
}

#[test]
fn fields_stand_where_the_paper_puts_them() {
    let image = sample().encode();
    assert_eq!(image[..10], [1, 9, 0x10, 200, 201, 1, 2, 3, 4, 16]);
    let entry = &image[10 + 44..10 + 88];
    assert_eq!(entry[..4], [2, 0x50, 2, 0]);
    assert_eq!(entry[4..12], [0x7F, 0xFF, 0xFF, 0xFF, 0, 0, 0, 16]);
    assert_eq!(entry[12..20], [0x80, 0, 0, 0, 0x3F, 0x80, 0, 0]);
    assert_eq!(entry[20..28], [2; 8]);
    assert_eq!(entry[28..36], [31, 12, 93, 2, 2, 2, 2, 2]);
    assert_eq!(entry[36..], [0x80, 0, 0, 0, 255, 255, 255, 255]);
    assert_eq!(image[714], 1);
}

/// Change 1: "The image gains a section before the sum: count 1, RealA, RealB,
/// both tables; 886 bytes."
#[test]
fn the_data_stands_before_the_sum() {
    let image = sample().encode();
    assert_eq!(image.len(), 886);
    assert_eq!(image[714..723], [1, 0x80, 0, 0, 0, 2, 3, 4, 5]);
    assert_eq!(image[723..731], [0, 0, 0, 0, 0, 0, 1, 0]);
    assert_eq!(image[731..739], [0, 0, 0, 1, 0, 0, 1, 1]);
    assert_eq!(image[795..803], [0, 0, 0, 9, 0, 0, 1, 9]);
    let last = [0xFF, 0x7F, 0xFF, 0xFF, 0x7F, 0x7F, 0xFF, 0xFF];
    assert_eq!(image[803..811], last);
    assert_eq!(image[875..883], last);
    assert_eq!(image[883], 1);
    assert_eq!(image[..714], sample().encode_old()[..714]);
}

#[test]
fn an_accepted_image_is_encoded_again_as_the_same_bytes() {
    let image = sample().encode();
    let settings = Settings::decode(&image).expect("allowed settings");
    assert_eq!(settings, sample());
    assert_eq!(settings.encode(), image);
}

/// Change 1: "Images of 717 bytes load with zeros there".
#[test]
fn an_old_image_loads_with_zeros_for_the_data() {
    let old = sample().encode_old();
    assert_eq!(old.len(), 717);
    let settings = Settings::decode(&old).expect("allowed settings");
    let expected = Settings {
        data: KeptData::default(),
        ..sample()
    };
    assert_eq!(settings, expected);
    let long = settings.encode();
    assert_eq!(long[714], 1);
    assert_eq!(long[715..883], [0; 168]);
}

#[test]
fn the_sum_of_empty_settings_is_19_or_18() {
    assert_eq!(Settings::default().encode()[884..], [0, 19]);
    assert_eq!(Settings::default().encode_old()[715..], [0, 18]);
}

/// The image with a byte changed, sealed again or not.
fn decode_changed(image: &[u8], offset: usize, sealed: bool) -> Result<Settings, u8> {
    let mut bad = image.to_vec();
    bad[offset] ^= 1;
    if sealed {
        seal(&mut bad);
    }
    Settings::decode(&bad)
}

#[test]
fn the_questions_come_in_order() {
    let (long, old) = (sample().encode(), sample().encode_old());
    for length in [0, 1, 2, 715, 716, 718, 885] {
        assert_eq!(Settings::decode(&long[..length]), Err(10));
    }
    assert_eq!(Settings::decode(&old[..716]), Err(10));
    for length in [718, 887, 903] {
        assert_eq!(Settings::decode(&vec![1; length]), Err(10));
    }
    for (image, counts) in [(&long[..], &[0, 9, 714, 883][..]), (&old, &[0, 9, 714])] {
        for &offset in counts {
            assert_eq!(decode_changed(image, offset, false), Err(11));
            assert_eq!(decode_changed(image, offset, true), Err(11));
        }
        for offset in [1, 5, 10, 713, 715, 716, image.len() - 2, image.len() - 1] {
            assert_eq!(decode_changed(image, offset, false), Err(12));
        }
    }
    assert_eq!(decode_changed(&long, 882, false), Err(12));
}

/// Counts and sum are asked at the image's own length: a long image cut to the
/// old length is an old image once it has its sum.
#[test]
fn each_length_has_its_own_sum() {
    let mut cut = sample().encode()[..717].to_vec();
    assert_eq!(Settings::decode(&cut), Err(12));
    seal(&mut cut);
    assert_eq!(cut, sample().encode_old());
    let mut padded = sample().encode_old().to_vec();
    padded.resize(886, 0);
    seal(&mut padded);
    assert_eq!(Settings::decode(&padded), Err(11));
}

fn decode_with(offset: usize, bytes: &[u8]) -> Result<Settings, u8> {
    let mut image = sample().encode();
    image[offset..offset + bytes.len()].copy_from_slice(bytes);
    seal(&mut image);
    let long = Settings::decode(&image);
    if offset < 714 {
        let mut old = image[..717].to_vec();
        seal(&mut old);
        let old = Settings::decode(&old);
        assert_eq!(old.map(|_| ()), long.map(|_| ()), "{offset}");
    }
    long
}

/// Change 1: the data's Reals must be finite.
#[test]
fn reals_of_the_data_section_are_judged() {
    for offset in (715..883).step_by(4) {
        for bytes in [[0x7F, 0x80, 0, 0], [0xFF, 0x80, 0, 0], [0x7F, 0xC0, 0, 0]] {
            assert_eq!(decode_with(offset, &bytes), Err(13), "{offset}");
        }
        for bytes in [[0x80, 0, 0, 0], [0xFF, 0x7F, 0xFF, 0xFF], [0, 0, 0, 1]] {
            assert!(decode_with(offset, &bytes).is_ok(), "{offset}");
        }
    }
}

#[test]
fn values_are_judged_last() {
    let last = 10 + 15 * 44;
    let bad: [(usize, &[u8]); 10] = [
        (2, &[0x20]),
        (5, &[0x80]),
        (last + 1, &[0x40]),
        (last + 2, &[17]),
        (last + 3, &[255]),
        (last + 4, &[0x80, 0, 0, 0]),
        (last + 8, &[0xFF]),
        (last + 12, &[0x80, 0, 0, 1]),
        (last + 16, &[0x3F, 0x80, 0, 1]),
        (last + 16, &[0x7F, 0xC0, 0, 0]),
    ];
    for (offset, bytes) in bad {
        assert_eq!(decode_with(offset, bytes), Err(13), "{offset}");
    }
    let good: [(usize, &[u8]); 4] = [
        (1, &[0xFF, 0, 0xFF, 0xFF]),
        (last, &[0xFF]),
        (last + 20, &[0xFF; 24]),
        (last + 12, &[0x80, 0, 0, 0]),
    ];
    for (offset, bytes) in good {
        assert!(decode_with(offset, bytes).is_ok(), "{offset}");
    }
}
