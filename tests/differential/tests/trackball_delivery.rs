//! The frames that a trackball hands out, delivered to a controller.

use differential::both::Both;
use differential::event::{Event, kind};
use differential::random::Random;
use differential::rounds::rounds;
use differential::trackball::act::Act;
use differential::trackball::draws;
use differential::trackball::trackballs::Trackballs;
use differential::under_settings::seed;
use model::{Reply, Settings};

const ACTS: usize = 6_000;

/// Output buffer full, and with a byte of the mouse.
const MOUSE_BYTE: u8 = 0x21;

/// What refuses a frame of the mouse in AT mode.
const NO_MOUSE: u8 = 12;

/// A controller with the mouse on and an empty buffer; in AT mode there is no
/// mouse to switch on.
fn ready(random: &mut Random, settings: Settings) -> Both {
    let mut controller = Both::started(random, settings);
    controller.accept(random, &[Event::command(0xA8)]);
    controller
}

/// One frame and a read, which gives its byte as the mouse's.
fn deliver(random: &mut Random, controller: &mut Both, frame: u16, byte: u8) {
    let answer = controller.event(random, Event::new(kind::MOUSE_FRAME, frame));
    assert_eq!(answer[0], 0, "refusal of {frame:03X}");
    assert_eq!(
        answer[3] & MOUSE_BYTE,
        MOUSE_BYTE,
        "status after {frame:03X}"
    );
    let answer = controller.event(random, Event::read());
    assert_eq!(answer[..3], [0, byte, 0], "read after {frame:03X}");
}

/// The frame is refused, and nothing new is read.
fn refuse(random: &mut Random, controller: &mut Both, frame: u16) {
    let before = controller.bytes();
    let answer = controller.event(random, Event::new(kind::MOUSE_FRAME, frame));
    assert_eq!(answer[0], NO_MOUSE, "refusal of {frame:03X}");
    assert_eq!(controller.bytes(), before);
    let answer = controller.event(random, Event::read());
    assert_eq!(answer[..3], [0, 0, 1], "read after {frame:03X}");
}

/// All that the last call handed out: each frame is sound and has its byte.
fn hand_over(random: &mut Random, controller: &mut Both, both: &Trackballs, reply: &Reply) {
    assert_eq!(both.frames().len(), reply.bytes().len());
    for (&frame, &byte) in both.frames().iter().zip(reply.bytes()) {
        assert_eq!(calugnid::judge(frame), u16::from(byte), "{frame:03X}");
        if controller.model.settings.at_mode {
            refuse(random, controller, frame);
        } else {
            deliver(random, controller, frame, byte);
        }
    }
}

fn every_frame_is_read_as_its_byte(settings: Settings) {
    let mut random = Random::new(seed(settings, 221));
    let mut controller = ready(&mut random, settings);
    let mut both = Trackballs::started(&mut random);
    let mut frames = [0; 5];
    for _ in 0..ACTS * rounds() {
        let act = draws::act(&mut random, 30, &both.model);
        let reply = both.act(act);
        hand_over(&mut random, &mut controller, &both, &reply);
        frames[reply.bytes().len()] += 1;
    }
    // No bytes, one, two, a packet or three, a packet behind FAh.
    assert!(frames.iter().all(|&count| count > 50), "{frames:?}");
}

/// The host sends a byte by D4h, and the trackball takes what the frame carries.
/// In AT mode D4h is unknown and the byte is the keyboard's.
fn take_from_host(random: &mut Random, controller: &mut Both, byte: u8) -> Option<u8> {
    controller.accept(random, &[Event::command(0xD4)]);
    let answer = controller.event(random, Event::data(byte));
    assert_eq!(answer[0], 0, "refusal of {byte:02X}");
    let frame = u16::from_le_bytes([answer[7], answer[8]]);
    let taken = calugnid::judge(frame);
    assert_eq!(taken, u16::from(byte));
    controller.accept(random, &[Event::new(kind::BYTE_TAKEN, 0)]);
    let to_mouse = answer[6] == 2;
    assert_eq!(to_mouse, !controller.model.settings.at_mode);
    to_mouse.then_some(taken as u8)
}

fn every_byte_from_the_host_is_answered(settings: Settings) {
    let mut random = Random::new(seed(settings, 222));
    let mut controller = ready(&mut random, settings);
    let mut both = Trackballs::started(&mut random);
    for byte in 0..=0xFF {
        let act = draws::move_of(&mut random, &both.model);
        both.act(act);
        if let Some(byte) = take_from_host(&mut random, &mut controller, byte) {
            let reply = both.act(Act::Send(byte));
            hand_over(&mut random, &mut controller, &both, &reply);
            let report = both.act(Act::Report);
            hand_over(&mut random, &mut controller, &both, &report);
        }
    }
}

differential::under_every_setting!(
    every_frame_is_read_as_its_byte,
    every_byte_from_the_host_is_answered,
);
