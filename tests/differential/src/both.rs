//! A state that the library changes in place and one of the model, driven
//! together. Every call compares all that it hands back and every byte.

use crate::event::Event;
use crate::fenced::Fenced;
use crate::given::Given;
use crate::guarded::Guarded;
use crate::random::Random;
use crate::starts;
use calugnid::Answer;
use model::{ANSWER_SIZE, Controller, EVENT_SIZE, IMAGE_SIZE, STATE_SIZE, Settings, state_bytes};

/// Refuses an event by its value, whatever the state.
const VALUE_TOO_LARGE: u8 = 2;

pub struct Both {
    pub model: Controller,
    fenced: Fenced,
}

impl Both {
    /// A fresh controller, made where any bytes were.
    pub fn started(random: &mut Random, settings: Settings) -> Both {
        let mut both = Both::unmade(random);
        starts::start(both.fenced.state_mut(), settings);
        both.model = Controller::fresh(settings);
        both.assert_same("start");
        both
    }

    /// A controller in the given state, loaded where any bytes were.
    pub fn of(random: &mut Random, state: &Controller) -> Both {
        let mut both = Both::unmade(random);
        let given = Given::again(&state.settings);
        assert_eq!(both.load(given, &model::save(state)), 0, "{state:?}");
        both
    }

    fn unmade(random: &mut Random) -> Both {
        Both {
            model: Controller::fresh(Settings::ORDINARY),
            fenced: Fenced::new(random),
        }
    }

    /// Starts afresh with a table; hands back the refusal number. A refused start
    /// leaves whatever bytes there are.
    pub fn start_with_table(&mut self, settings: Settings, table: &[u8]) -> u8 {
        let before = self.bytes();
        let (options, version) = (settings.options(), settings.version);
        let state = self.fenced.state_mut();
        let result = state.start_with_table(options, version, table);
        let refusal = self.model.start_with_table(settings, table);
        assert_eq!(result, refusal, "refusal of {table:02X?}");
        if refusal == 0 {
            self.assert_same("a start with a table");
        } else {
            self.fenced.assert_bytes(&before, "a refused start");
        }
        refusal
    }

    pub fn bytes(&self) -> [u8; STATE_SIZE] {
        self.fenced.bytes()
    }

    fn assert_same(&self, what: &str) {
        self.fenced.assert_bytes(&state_bytes(&self.model), what);
    }

    /// One event; hands back its answer.
    pub fn event(&mut self, random: &mut Random, event: Event) -> Answer {
        let before = self.bytes();
        let expected = self.model.event(event.kind, event.value);
        let mut buffer = Guarded::new(random, ANSWER_SIZE);
        let state = self.fenced.state_mut();
        state.event(event.kind, event.value, buffer.array());
        buffer.assert_begins(&expected, "answer");
        self.assert_same("an event");
        if expected[0] != 0 {
            assert_eq!(self.bytes(), before, "state after a refused event");
        }
        expected
    }

    /// Events one by one, all of which must be accepted.
    pub fn accept(&mut self, random: &mut Random, events: &[Event]) {
        for &event in events {
            assert_eq!(self.event(random, event)[0], 0, "{event:?}");
        }
    }

    /// A list; hands back the refusal number.
    pub fn run(&mut self, random: &mut Random, list: &[u8], room: usize) -> u8 {
        let mut answers = vec![0; room];
        let refusal = self.model.run(list, &mut answers);
        let events = if refusal == 0 {
            list.len() / EVENT_SIZE
        } else {
            0
        };
        let mut buffer = Guarded::new(random, room);
        let result = self.fenced.state_mut().run(list, buffer.inside());
        assert_eq!(result, refusal, "refusal of a list");
        buffer.assert_begins(&answers[..events * ANSWER_SIZE], "answers");
        self.assert_same("a list");
        refusal
    }

    /// What would refuse an event.
    pub fn refusal(&self, event: Event) -> u8 {
        let expected = self.model.refusal(event.kind, event.value);
        let refusal = self.fenced.state().refusal(event.kind, event.value);
        assert_eq!(refusal, expected, "refusal of {event:?}");
        if refusal != VALUE_TOO_LARGE {
            let ready = self.fenced.state().ready(event.kind);
            assert_eq!(ready, refusal == 0, "ready for {event:?}");
        }
        self.assert_same("a question");
        refusal
    }

    /// The lines, the byte being sent, and what else can be asked of a state.
    pub fn look(&self, random: &mut Random) {
        let mut buffer = Guarded::new(random, ANSWER_SIZE);
        self.fenced.state().lines(buffer.array());
        buffer.assert_begins(&self.model.lines(), "lines");
        let sent = self.fenced.state().sent_byte();
        assert_eq!(sent, self.model.sent_byte(), "byte being sent");
        self.look_at_questions();
        self.assert_same("a look");
    }

    fn look_at_questions(&self) {
        let (state, model) = (self.fenced.state(), &self.model);
        assert_eq!(state.status(), model.status(), "status");
        assert_eq!(state.locked(), model.locked, "locked");
        assert_eq!(state.options(), model.settings.options(), "options");
        assert_eq!(state.version_byte(), model.settings.version, "version byte");
        for kind in 0..=10 {
            let expected = model.refusal(kind, 0) == 0;
            assert_eq!(state.ready(kind), expected, "ready for kind {kind}");
        }
    }

    /// Saves with the given room; hands back what was written.
    pub fn save(&self, random: &mut Random, room: usize) -> Vec<u8> {
        let mut saved = vec![0; room];
        let refusal = model::store(&self.model, &mut saved);
        saved.truncate(if refusal == 0 { IMAGE_SIZE } else { 0 });
        let mut buffer = Guarded::new(random, room);
        let result = self.fenced.state().save(buffer.inside());
        assert_eq!(result, refusal, "refusal of a save");
        buffer.assert_begins(&saved, "saved image");
        self.assert_same("a save");
        saved
    }

    /// Loads; hands back the refusal number. A refused load leaves whatever
    /// bytes there are.
    pub fn load(&mut self, given: Given, image: &[u8]) -> u8 {
        let before = self.bytes();
        let result = given.load_by_library(self.fenced.state_mut(), image);
        match given.load_by_model(image) {
            Ok(state) => {
                assert_eq!(result, 0, "refusal of {image:02X?} with {given:02X?}");
                self.model = state;
                self.assert_same("a load");
            }
            Err(refusal) => {
                assert_eq!(result, refusal, "refusal of {image:02X?} with {given:02X?}");
                self.fenced.assert_bytes(&before, "a refused load");
            }
        }
        result
    }
}

/// Starts over bytes that stand for nothing; hands back the refusal number.
pub fn start_with_table(random: &mut Random, settings: Settings, table: &[u8]) -> u8 {
    Both::unmade(random).start_with_table(settings, table)
}

/// Loads over bytes that stand for nothing; hands back the refusal number.
pub fn load(random: &mut Random, given: Given, image: &[u8]) -> u8 {
    Both::unmade(random).load(given, image)
}
