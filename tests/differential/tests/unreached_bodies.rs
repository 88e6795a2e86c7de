//! Bodies that break no rule though no list from fresh makes them: with the second
//! set a code, a closed lock or a load under way; in AT mode these and what else
//! belongs to the mouse or to polling. They are loaded and run beside the model.
//! With the first set in PS/2 mode there are none.

use differential::both::Both;
use differential::compare::{self, Room};
use differential::coverage::Coverage;
use differential::event::Event;
use differential::few_keys;
use differential::given::Given;
use differential::images;
use differential::lists;
use differential::random::Random;
use differential::rounds::rounds;
use differential::situations::overlay_nibble;
use differential::under_settings::{locks, seed};
use differential::walks::walk;
use model::{
    Controller, Device, EVENT_SIZE, IMAGE_SIZE, Password, Pending, Settings, keeps_state_rules,
    mode, save,
};

const WALKED_EVENTS: usize = 400;
const STATES_OF_EACH: usize = 6;

/// A part that no list makes under some settings.
type Part = fn(&mut Random, &mut Controller);

fn code(random: &mut Random, state: &mut Controller) {
    state.password = Password::EMPTY;
    for _ in 0..1 + random.below(16) {
        state.password.push(random.byte_in(0x01..=0x7F));
    }
}

fn load_under_way(random: &mut Random, state: &mut Controller) {
    if random.chance(70) {
        code(random, state);
    }
    state.pending = Pending::Password;
}

fn closed_lock(random: &mut Random, state: &mut Controller) {
    let locked = few_keys::draw_locked(random, state.settings);
    state.password = locked.password;
    state.locked = true;
    state.count_first(locked.position());
    state.pending = Pending::None;
    state.sending = None;
    state.clear_mode(mode::KEYBOARD_OFF);
}

fn mouse_byte(random: &mut Random, state: &mut Controller) {
    state.put(random.byte(), Device::Mouse);
}

fn overlay(random: &mut Random, state: &mut Controller) {
    state.overlay = Some(overlay_nibble(state.settings, random.below(16)));
}

fn put_pending(_: &mut Random, state: &mut Controller) {
    state.pending = Pending::Output;
}

fn put_by_mouse_pending(_: &mut Random, state: &mut Controller) {
    state.pending = Pending::MouseOutput;
}

fn send_to_mouse_pending(_: &mut Random, state: &mut Controller) {
    state.pending = Pending::SendToMouse;
}

fn sending_to_mouse(random: &mut Random, state: &mut Controller) {
    state.sending = Some((Device::Mouse, random.byte()));
}

const OF_THE_LOCK: [Part; 3] = [code, load_under_way, closed_lock];
const OF_PS2_MODE: [Part; 6] = [
    mouse_byte,
    overlay,
    put_pending,
    put_by_mouse_pending,
    send_to_mouse_pending,
    sending_to_mouse,
];

/// The parts that no list from fresh makes under these settings.
fn unreached(settings: Settings) -> Vec<Part> {
    let mut parts = Vec::new();
    if !locks(settings) {
        parts.extend(OF_THE_LOCK);
    }
    if settings.at_mode {
        parts.extend(OF_PS2_MODE);
    }
    parts
}

/// A drawn state with one of the parts, or with another one of them beside it
/// where the two go together.
fn states(random: &mut Random, settings: Settings) -> Vec<Controller> {
    let parts = unreached(settings);
    let mut states = Vec::new();
    for &part in &parts {
        for number in 0..STATES_OF_EACH * rounds() {
            let mut state = images::state(random, settings);
            state.locked = false;
            part(random, &mut state);
            let mut both = state.clone();
            random.pick(&parts)(random, &mut both);
            let together = number % 2 == 1 && keeps_state_rules(&both);
            states.push(if together { both } else { state });
        }
    }
    states
}

/// True where there is something that no list makes under these settings.
fn is_unreached(state: &Controller) -> bool {
    let of_lock = state.locked || !state.password.is_empty() || state.pending == Pending::Password;
    let for_mouse = matches!(state.sending, Some((Device::Mouse, _)));
    let of_pending = matches!(
        state.pending,
        Pending::Output | Pending::MouseOutput | Pending::SendToMouse
    );
    let of_ps2_mode =
        state.source == Device::Mouse || state.overlay.is_some() || of_pending || for_mouse;
    !locks(state.settings) && of_lock || state.settings.at_mode && of_ps2_mode
}

/// Goes on with a load where one is under way: bytes, and at times too many.
fn load_on(random: &mut Random, both: &mut Both) {
    for _ in 0..random.below(18) {
        if both.model.pending == Pending::Password && both.model.sending.is_none() {
            let byte = random.byte_in(0x01..=0xFF);
            both.event(random, Event::data(byte));
        }
    }
}

/// Hundreds of events from each, one by one, and then saved and loaded again.
fn walks_from_what_no_list_makes(settings: Settings) {
    let mut random = Random::new(seed(settings, 241));
    let mut coverage = Coverage::new();
    for (number, state) in states(&mut random, settings).iter().enumerate() {
        assert!(is_unreached(state), "{state:?}");
        let mut both = Both::of(&mut random, state);
        assert_eq!(both.model, *state);
        both.look(&mut random);
        load_on(&mut random, &mut both);
        let walk_seed = seed(settings, 2_410_000 + number as u64);
        walk(&mut both, walk_seed, WALKED_EVENTS, &mut coverage);
        let before = both.bytes();
        let saved = both.save(&mut random, IMAGE_SIZE);
        assert_eq!(both.load(Given::again(&settings), &saved), 0);
        assert_eq!(both.bytes(), before);
    }
    println!("{} events, {} opened", coverage.events, coverage.opens);
    assert!(locks(settings) || coverage.opens > STATES_OF_EACH / 2);
}

/// How many events of a list come where there is something unreached.
fn unreached_events(mut state: Controller, list: &[u8]) -> usize {
    let events = list.chunks_exact(EVENT_SIZE).map(Event::from_bytes);
    let unreached = events.filter(|event| {
        let before = is_unreached(&state);
        state.event(event.kind, event.value);
        before
    });
    unreached.count()
}

/// The same as a list that is run from the image.
fn lists_from_what_no_list_makes(settings: Settings) {
    let mut random = Random::new(seed(settings, 242));
    let given = Given::again(&settings);
    let mut events = 0;
    for (number, state) in states(&mut random, settings).iter().enumerate() {
        let mut end = state.clone();
        let list_seed = seed(settings, 2_420_000 + number as u64);
        let list = lists::guided_from(&mut end, list_seed, 600, &mut Coverage::new());
        events += unreached_events(state.clone(), &list);
        let bytes = images::behind(&mut random, &save(state));
        let room = Room::enough(&mut random, &list);
        let written = compare::run_image(&mut random, given, &bytes, &list, room);
        assert_eq!(written.refusal, 0);
        assert_eq!(written.saved, save(&end));
    }
    println!("{events} events with something unreached");
    assert!(locks(settings) || events > 2_000, "{events}");
}

differential::under_every_setting!(walks_from_what_no_list_makes, lists_from_what_no_list_makes,);
