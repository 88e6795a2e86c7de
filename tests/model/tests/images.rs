//! Saved images of both editions.

mod host;

use host::Host;
use host::saved::{fresh_body, sealed, sealed_as_edition_1};
use host::tables::reversed;
use model::{
    Controller, EDITION_1_SIZE, IMAGE_SIZE, KeyTable, Settings, encode, find, load,
    load_with_table, save, state_bytes, store,
};

/// A state in which most parts differ from fresh.
fn busy() -> Controller {
    let mut host = Host::ready();
    host.command_with(0x7F, 0xEE);
    host.load(&[0x1E, 0x30, 0xFF]);
    host.pins(0x5A);
    host.command(0xC1);
    host.data(0x14);
    host.timed_out();
    host.data(0x15);
    host.state
}

/// An image of each edition of the same ordinary state.
fn of_both_editions(state: &Controller) -> [Vec<u8>; 2] {
    let body = encode(state);
    [sealed_as_edition_1(&body), sealed(&body)]
}

#[test]
fn fresh_bytes() {
    let mut saved = [0xA5; 74];
    let fresh = Controller::fresh(Settings::ORDINARY);
    assert_eq!(store(&fresh, &mut saved[..71]), 9);
    assert_eq!(saved, [0xA5; 74]);
    assert_eq!(store(&fresh, &mut saved), 0);
    let mut expected = [0; 72];
    expected[2] = 0xFF;
    expected[3] = 3;
    expected[28] = 0x70;
    expected[61] = 0x3F;
    expected[62] = 0x03;
    // FFh + 300h + 70h + 3F00h + 03h
    expected[64..].copy_from_slice(&[64, 0, 0x72, 0x43, 2, 0x4B, 0x42, 0x43]);
    assert_eq!(saved[..72], expected);
    assert_eq!(saved[72..], [0xA5; 2]);
    assert_eq!(encode(&fresh), expected[..64]);
}

/// The bytes that a save wrote before there were two editions.
#[test]
fn fresh_bytes_of_edition_1() {
    let mut image = [0; 68];
    image[2] = 0xFF;
    image[3] = 3;
    image[28] = 0x70;
    image[60..].copy_from_slice(&[60, 0, 0x6F, 0x04, 1, 0x4B, 0x42, 0x43]);
    assert_eq!(sealed_as_edition_1(&fresh_body(Settings::ORDINARY)), image);
    assert_eq!(find(&image), &image[..60]);
    let fresh = Controller::fresh(Settings::ORDINARY.with_version(0x42));
    assert_eq!(load(0x42, &image), Ok(fresh));
}

#[test]
fn sizes() {
    assert_eq!((EDITION_1_SIZE, IMAGE_SIZE), (68, 72));
}

#[test]
fn load_undoes_save() {
    let locked = Host::locked_with(&[0x1E, 0x30]).state;
    for state in [Controller::fresh(Settings::ORDINARY), busy(), locked] {
        Host {
            state: state.clone(),
        }
        .restored();
        for image in of_both_editions(&state) {
            assert_eq!(load(0, &image), Ok(state.clone()));
        }
    }
}

#[test]
fn a_fresh_controller_is_restored_with_its_settings() {
    for table in [KeyTable::BUILT_IN, reversed()] {
        for settings in Settings::ALL {
            let settings = settings.with_version(0x42).with_table(table);
            let restored = Host::started(settings).restored();
            assert_eq!(restored.state.settings, settings);
        }
    }
}

/// Nothing of them is in an image.
#[test]
fn the_version_byte_and_the_table_are_those_given() {
    for settings in Settings::ALL {
        let other = settings.with_version(0x99).with_table(reversed());
        let image = save(&Controller::fresh(settings));
        assert_eq!(image, save(&Controller::fresh(other)));
        let loaded = load_with_table(0x99, &reversed().0, &image);
        assert_eq!(loaded, Ok(Controller::fresh(other)));
        let loaded = load(0x99, &image).expect("an image");
        let bytes = state_bytes(&loaded);
        assert_eq!(bytes[..64], image[..64]);
        assert_eq!(bytes[64], 0x99);
        assert_eq!(bytes[65..], KeyTable::BUILT_IN.0);
    }
}

#[test]
fn image_stands_at_the_end() {
    for (image, body) in of_both_editions(&busy()).into_iter().zip([60, 64]) {
        let mut bytes = vec![0x4B; 31];
        bytes.extend_from_slice(&image);
        assert_eq!(find(&bytes).as_ptr(), bytes[31..].as_ptr());
        assert_eq!(find(&bytes).len(), body);
        assert_eq!(load(0, &bytes), Ok(busy()));
        bytes.push(0);
        let end = bytes.as_ptr_range().end;
        assert_eq!((find(&bytes).as_ptr(), find(&bytes).len()), (end, 0));
        assert_eq!(load(0, &bytes), Err(10));
    }
}

#[test]
fn any_trailer_change_is_refused() {
    for image in of_both_editions(&busy()) {
        assert_eq!(load(0, &image[1..]), Err(10));
        for at in image.len() - 8..image.len() {
            for value in (0..=0xFF).filter(|&value| value != image[at]) {
                let mut changed = image.clone();
                changed[at] = value;
                assert_eq!(load(0, &changed), Err(10), "{at} {value}");
            }
        }
    }
}

/// The trailer that some bytes would have if both the distance and the sum were
/// of the last `length` of them.
fn with_trailer(bytes: &[u8], length: usize, edition: u8) -> Vec<u8> {
    let sum = model::word_sum(&bytes[bytes.len() - length..]).to_le_bytes();
    let trailer = [length as u8, 0, sum[0], sum[1], edition, 0x4B, 0x42, 0x43];
    [bytes, &trailer].concat()
}

#[test]
fn a_trailer_of_one_edition_does_not_close_a_body_of_the_other() {
    let body = encode(&busy());
    assert_eq!(load(0, &with_trailer(&body, 64, 2)), Ok(busy()));
    assert_eq!(load(0, &with_trailer(&body[..60], 60, 1)), Ok(busy()));
    assert_eq!(load(0, &with_trailer(&body, 64, 1)), Err(10));
    assert_eq!(load(0, &with_trailer(&body, 60, 2)), Err(10));
    assert_eq!(load(0, &with_trailer(&body[..60], 60, 2)), Err(10));
    for edition in (0..=0xFF).filter(|&edition| edition != 2) {
        assert_eq!(load(0, &with_trailer(&body, 64, edition)), Err(10));
    }
    // The last 60 bytes are taken, which break a rule.
    assert_eq!(find(&with_trailer(&body, 60, 1)), &body[4..]);
    assert_eq!(load(0, &with_trailer(&body, 60, 1)), Err(11));
}

/// From 68 bytes on an image of edition 1 would be there.
#[test]
fn edition_2_asks_for_72_bytes() {
    let image = save(&busy());
    for cut in 0..72 {
        let expected = if cut == 0 { Ok(busy()) } else { Err(10) };
        assert_eq!(load(0, &image[cut..]), expected);
    }
    let [old, _] = of_both_editions(&busy());
    for cut in 0..68 {
        let expected = if cut == 0 { Ok(busy()) } else { Err(10) };
        assert_eq!(load(0, &old[cut..]), expected);
    }
}

#[test]
fn sum_wraps_and_covers_the_last_word() {
    let mut state = Controller::fresh(Settings::SECOND_SET_IN_AT_MODE);
    state.ram[1..].fill(0xFF);
    state.latch_25 = true;
    state.transmit_timeout = true;
    let image = save(&state);
    assert_eq!(load(0, &image), Ok(state));
    for (at, value) in [(59, 0), (60, 7), (61, 0), (62, 0), (63, 0)] {
        let mut changed = image;
        changed[at] = value;
        assert_eq!(load(0, &changed), Err(10), "{at}");
    }
}

/// What the controller had before is gone in every byte.
#[test]
fn an_image_of_edition_1_is_loaded_with_the_ordinary_settings() {
    for version in [0, 0x42, 0xFF] {
        let [old, new] = of_both_editions(&busy());
        let settings = Settings::ORDINARY
            .with_version(version)
            .with_table(reversed());
        let loaded = load_with_table(version, &reversed().0, &old).expect("an image");
        assert_eq!(loaded.settings, settings);
        assert_eq!(state_bytes(&loaded)[60..64], [0, 0x3F, 0x03, 0]);
        assert_eq!(load_with_table(version, &reversed().0, &new), Ok(loaded));
    }
}
