//! Each body rule that both editions have, broken alone.

use differential::image_tries::ImageTries;
use differential::images;
use model::{Controller, Device, Edition, Password, Pending, Settings, save};

type Change = (&'static str, &'static [(usize, u8)]);

/// Tries a body with the given bytes changed and the sum mended, as an image of
/// either edition.
fn refusal_of(state: &Controller, changes: &[(usize, u8)]) -> u8 {
    let mut tries = ImageTries::new(31);
    let new = save(state).to_vec();
    let old = images::as_edition_1(state).to_vec();
    let refusals = [(Edition::Second, new), (Edition::First, old)].map(|(edition, mut image)| {
        for &(at, value) in changes {
            image[at] = value;
        }
        images::mend(edition, &mut image);
        tries.image(&image)
    });
    assert_eq!(refusals[0], refusals[1], "the two editions");
    refusals[0]
}

fn assert_broken(state: &Controller, rules: &[Change]) {
    assert_eq!(refusal_of(state, &[]), 0, "the state to start from");
    for (rule, changes) in rules {
        assert_eq!(refusal_of(state, changes), 11, "{rule}");
    }
}

fn assert_kept(state: &Controller, cases: &[Change]) {
    for (case, changes) in cases {
        assert_eq!(refusal_of(state, changes), 0, "{case}");
    }
}

fn password(code: &[u8]) -> Password {
    let mut password = Password::EMPTY;
    for &byte in code {
        password.push(byte);
    }
    password
}

fn fresh() -> Controller {
    Controller::fresh(Settings::ORDINARY)
}

fn locked() -> Controller {
    let mut state = fresh();
    state.password = password(&[0x1E, 0x30, 0x2E]);
    state.locked = true;
    state.count_first(2);
    state
}

#[test]
fn rules_of_an_open_controller() {
    assert_broken(
        &fresh(),
        &[
            ("flags bit 7", &[(1, 0x80)]),
            ("mouse source without a byte", &[(1, 0x02)]),
            ("latches bit 2", &[(3, 0x07)]),
            ("latches bit 7", &[(3, 0x83)]),
            ("pending code 8", &[(4, 8)]),
            ("cell without code 2", &[(5, 1)]),
            ("cell with code 1", &[(4, 1), (5, 1)]),
            ("cell with code 3", &[(4, 3), (5, 1)]),
            ("code 2 for cell 0", &[(4, 2)]),
            ("code 2 for cell 32", &[(4, 2), (5, 32)]),
            ("overlay present twice", &[(6, 2)]),
            ("nibble without overlay", &[(7, 1)]),
            ("nibble of five bits", &[(6, 1), (7, 16)]),
            ("third device", &[(8, 3)]),
            ("byte sent to nobody", &[(9, 1)]),
            ("password of 17", &[(10, 17)]),
            ("password byte zero", &[(10, 1)]),
            ("byte after the password", &[(12, 1)]),
            ("last byte after the password", &[(10, 1), (12, 1), (27, 1)]),
            ("zero inside the password", &[(10, 3), (12, 1), (14, 1)]),
            ("position while open", &[(10, 2), (12, 1), (13, 1), (11, 1)]),
            ("mode bit 7", &[(28, 0xF0)]),
            ("locked without a password", &[(1, 0x40)]),
        ],
    );
}

#[test]
fn rules_of_a_locked_controller() {
    assert_broken(
        &locked(),
        &[
            ("position at the length", &[(11, 3)]),
            ("position past the length", &[(11, 255)]),
            ("pending mode", &[(4, 1)]),
            ("pending cell", &[(4, 2), (5, 1)]),
            ("pending code", &[(4, 3)]),
            ("pending send", &[(4, 7)]),
            ("sending to the keyboard", &[(8, 1)]),
            ("sending to the mouse", &[(8, 2), (9, 9)]),
            (
                "no password",
                &[(10, 0), (11, 0), (12, 0), (13, 0), (14, 0)],
            ),
            ("open with a position", &[(1, 0)]),
        ],
    );
}

#[test]
fn what_is_only_just_allowed() {
    assert_kept(
        &fresh(),
        &[
            ("all flags but the lock", &[(1, 0x3F)]),
            ("no latches", &[(3, 0)]),
            ("code 7", &[(4, 7)]),
            ("code 2 for cell 1", &[(4, 2), (5, 1)]),
            ("code 2 for cell 31", &[(4, 2), (5, 31)]),
            ("overlay 0", &[(6, 1)]),
            ("overlay 15", &[(6, 1), (7, 15)]),
            ("zero sent to the mouse", &[(8, 2)]),
            ("pending while sending", &[(4, 3), (8, 1), (9, 1)]),
            ("mode with all bits", &[(28, 0x7F)]),
            ("cell 1 with bit 7", &[(29, 0xFF)]),
            ("last cell", &[(59, 0xFF)]),
        ],
    );
    assert_kept(
        &locked(),
        &[
            ("position 0", &[(11, 0)]),
            ("locked with a mouse byte and errors", &[(1, 0x7F)]),
            ("locked with an overlay", &[(6, 1), (7, 5)]),
            ("locked with the keyboard off", &[(28, 0x10)]),
        ],
    );
}

#[test]
fn longest_password_and_position() {
    let mut state = locked();
    state.password = password(&[0xFF; 16]);
    state.count_first(15);
    assert_broken(
        &state,
        &[("position 16", &[(11, 16)]), ("length 17", &[(10, 17)])],
    );
    state.locked = false;
    state.pending = Pending::Password;
    state.sending = Some((Device::Mouse, 0));
    assert_kept(&state, &[("a full code still loading", &[])]);
}
