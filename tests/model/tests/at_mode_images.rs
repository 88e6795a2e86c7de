//! Saves and loads of a controller in AT mode.

mod host;

use host::{Host, IN_AT_MODE};
use model::{Settings, run_image, save};

/// Each part that only AT mode has differs from fresh.
fn changed(settings: Settings) -> Host {
    let mut host = Host::ready_under(settings);
    host.command_with(0xD1, 0x21);
    host.data(0xED);
    host.timed_out();
    host
}

#[test]
fn a_load_restores_the_mode_its_latches_and_the_time_out() {
    for settings in IN_AT_MODE {
        let host = changed(settings);
        let image = save(&host.state);
        assert_eq!(image[60..64], [settings.options(), 0x3F, 0x08, 0x01]);
        let mut restored = host.restored();
        let answer = restored.status();
        assert_eq!((answer.status, answer.port), (0x31, 0xA1));
        assert_eq!(restored.event(5, 0x628).refusal, 12);
    }
}

/// The receive time-out stands where TERR does.
#[test]
fn the_receive_time_out_and_parity_are_in_the_flags() {
    for (frame, flag) in [(1022, 0x08), (0x428, 0x10)] {
        let mut host = Host::ready_under(Settings::AT_MODE);
        host.keyboard_frame(frame);
        host.read();
        let image = save(&host.state);
        assert_eq!((image[1] & 0x18, image[63]), (flag, 0));
    }
    let image = save(&changed(Settings::AT_MODE).state);
    assert_eq!((image[1] & 0x18, image[63]), (0, 1));
}

#[test]
fn a_run_from_an_image_is_in_at_mode() {
    let image = save(&changed(Settings::AT_MODE).state);
    let mut answers = [0; 18];
    let mut saved = [0; 72];
    // A byte to the keyboard times out, over the FEh that waits.
    let list = [1, 0xED, 0, 7, 0, 0];
    assert_eq!(run_image(0, &image, &list, &mut answers, &mut saved), 0);
    assert_eq!(answers[9..], [0, 0, 0, 0x31, 0xA1, 0, 0, 0, 0]);
    assert_eq!(saved, image);
}
