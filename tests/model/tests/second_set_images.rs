//! Saves and loads of a controller with the second set.

mod host;

use host::{Host, SECOND_SET};
use model::{Settings, encode, keeps_body_rules, run_image, save, state_bytes};

/// Each part that only the second set has differs from fresh.
fn changed(settings: Settings) -> Host {
    let mut host = Host::ready_under(settings.with_version(0x77));
    host.command(0x96);
    host.command(0xB7);
    host.command(0xC8);
    host.command_with(0xD1, 0xF1);
    host.pins(0xEE);
    let lines = if settings.at_mode { 0x08 } else { 0x00 };
    let options = settings.options() | 0x08;
    assert_eq!(
        state_bytes(&host.state)[60..65],
        [options, 0x16, lines, 0, 0x77]
    );
    host
}

#[test]
fn a_load_restores_the_set_its_latches_and_the_permission() {
    for settings in SECOND_SET {
        let mut restored = changed(settings).restored();
        restored.command(0xC0);
        // The pins that are low are P10 and P14, the latches P10, P13 and P15.
        assert_eq!(restored.read().byte, 0xC6);
        restored.command(0xAF);
        assert_eq!(restored.read().byte, 0x77);
        restored.command_with(0xD1, 0x0F);
        assert_eq!(save(&restored.state)[62], 0x03);
    }
}

/// B0h writes a latch, C1h leaves the key switch its bit, A1h puts the version
/// byte given.
#[test]
fn a_run_from_an_image_is_with_the_second_set() {
    for settings in SECOND_SET {
        let image = save(&changed(settings).state);
        let mut answers = [0; 45];
        let mut saved = [0; 72];
        let list = [3, 0xB1, 0, 8, 0x7F, 0, 3, 0xC1, 0, 3, 0xA1, 0, 0, 0, 0];
        assert_eq!(run_image(0x66, &image, &list, &mut answers, &mut saved), 0);
        // Of P11-P13 the latch of P12 alone is 1. AT mode does not poll.
        let polled = if settings.at_mode { 0x08 } else { 0x48 };
        assert_eq!(answers[2 * 9 + 3], polled);
        assert_eq!(answers[4 * 9 + 1], 0x66);
        assert_eq!(saved[61], 0x14);
    }
}

/// An overlay of the second set is saved with its lowest bit 0, and the key switch
/// shows beside it after the load too.
#[test]
fn a_saved_overlay_has_its_lowest_bit_0() {
    let mut host = Host::started(Settings::SECOND_SET);
    assert_eq!(host.command(0xC1).status, 0xF8);
    assert!(keeps_body_rules(&encode(&host.state)));
    assert_eq!(save(&host.state)[6..8], [1, 0x0E]);
    let mut restored = host.restored();
    assert_eq!(restored.status().status, 0xF8);
    assert_eq!(restored.pins(0x7F).status, 0xE8);
}
