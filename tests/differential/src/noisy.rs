//! Lists with noise put in between their events.

use crate::event::{Event, kind};
use crate::random::Random;
use crate::unguided;
use model::{ANSWER_SIZE, EVENT_SIZE, Settings};

#[derive(Default)]
pub struct Noisy {
    pub list: Vec<u8>,
    /// For each event of it, whether it is noise that was put in.
    pub put_in: Vec<bool>,
}

/// Puts noise before the events of a list and behind the last. At each place
/// one more comes with the given chance.
pub fn with_noise(random: &mut Random, quiet: &[u8], percent: usize) -> Noisy {
    let mut noisy = Noisy::default();
    for event in quiet.chunks_exact(EVENT_SIZE) {
        noisy.put_noise(random, percent);
        noisy.list.extend(event);
        noisy.put_in.push(false);
    }
    noisy.put_noise(random, percent);
    noisy
}

/// What noise may be answered with.
fn refusals(settings: Settings, noise: Event) -> &'static [u8] {
    if settings.at_mode && noise.kind == kind::MOUSE_FRAME {
        &[12]
    } else {
        &[0, 5]
    }
}

impl Noisy {
    fn put_noise(&mut self, random: &mut Random, percent: usize) {
        while random.chance(percent) {
            self.list.extend(unguided::noise(random).to_bytes());
            self.put_in.push(true);
        }
    }

    /// Each event, and whether it was put in.
    pub fn events(&self) -> impl Iterator<Item = (Event, bool)> {
        let events = self.list.chunks_exact(EVENT_SIZE).map(Event::from_bytes);
        events.zip(self.put_in.iter().copied())
    }

    /// Of all answers those to the events that were there before.
    pub fn answers_to_others(&self, answers: &[u8]) -> Vec<u8> {
        let answers = answers.chunks_exact(ANSWER_SIZE);
        let others = answers.zip(&self.put_in).filter(|&(_, put_in)| !put_in);
        others.flat_map(|(answer, _)| answer).copied().collect()
    }

    /// Checks that the answer to noise that was put in shows the lines of the
    /// answer before it, or of the start, and that nothing but check 5 refused
    /// it, or 12 that of the mouse in AT mode.
    pub fn assert_lines_stand(
        &self,
        settings: Settings,
        start: &[u8; ANSWER_SIZE],
        answers: &[u8],
    ) {
        let mut before: &[u8] = start;
        for (answer, (event, put_in)) in answers.chunks_exact(ANSWER_SIZE).zip(self.events()) {
            if put_in {
                let refusals = refusals(settings, event);
                assert!(refusals.contains(&answer[0]), "refused by {}", answer[0]);
                assert_eq!(answer[1..3], [0, 0], "byte read and old mark");
                assert_eq!(answer[3..5], before[3..5], "status and P2");
                assert_eq!(answer[5], 0, "pulse");
                assert_eq!(answer[6..], before[6..], "byte being sent");
            }
            before = answer;
        }
    }
}

#[cfg(test)]
mod tests {
    use super::*;
    use crate::lists;
    use crate::under_settings::{AT_MODE, ORDINARY};

    #[test]
    fn without_what_was_put_in_the_list_is_there() {
        let mut random = Random::new(7);
        let quiet = lists::unguided(&mut random, 1_000);
        let noisy = with_noise(&mut random, &quiet, 30);
        let rest: Vec<u8> = noisy
            .events()
            .filter(|&(_, put_in)| !put_in)
            .flat_map(|(event, _)| event.to_bytes())
            .collect();
        assert_eq!(rest, quiet);
        let put_in: Vec<Event> = noisy
            .events()
            .filter(|&(_, put_in)| put_in)
            .map(|(event, _)| event)
            .collect();
        assert!(put_in.len() > 300, "{}", put_in.len());
        assert!(put_in.iter().all(|event| event.is_noise()));
        assert_eq!(noisy.list.len(), quiet.len() + 3 * put_in.len());
    }

    #[test]
    fn answers_are_told_apart() {
        let noisy = Noisy {
            list: vec![0, 0, 0, 4, 1, 0, 2, 0, 0],
            put_in: vec![false, true, false],
        };
        let answers: Vec<u8> = (0..27).collect();
        let others: Vec<u8> = (0..9).chain(18..27).collect();
        assert_eq!(noisy.answers_to_others(&answers), others);
    }

    #[test]
    fn a_line_that_moves_is_seen() {
        let noisy = Noisy {
            list: vec![4, 1, 0],
            put_in: vec![true],
        };
        let start = [0, 0, 0, 0x10, 0x4B, 0, 0, 0, 0];
        let stands = |answer: [u8; ANSWER_SIZE]| {
            let look = || noisy.assert_lines_stand(ORDINARY, &start, &answer);
            std::panic::catch_unwind(look).is_ok()
        };
        assert!(stands([5, 0, 0, 0x10, 0x4B, 0, 0, 0, 0]));
        for at in 0..ANSWER_SIZE {
            let mut moved = start;
            moved[at] ^= 1;
            assert!(!stands(moved), "byte {at}");
        }
    }

    #[test]
    fn only_12_refuses_the_mouse_in_at_mode() {
        let lines = |refusal| [refusal, 0, 0, 0x10, 0xCF, 0, 0, 0, 0];
        for (settings, kind, allowed) in [
            (ORDINARY, 4, &[0, 5][..]),
            (ORDINARY, 5, &[0, 5]),
            (AT_MODE, 4, &[0, 5]),
            (AT_MODE, 5, &[12]),
        ] {
            let noisy = Noisy {
                list: vec![kind, 1, 0],
                put_in: vec![true],
            };
            for refusal in 0..=12 {
                let look = || noisy.assert_lines_stand(settings, &lines(0), &lines(refusal));
                let stands = std::panic::catch_unwind(look).is_ok();
                assert_eq!(stands, allowed.contains(&refusal), "{kind} by {refusal}");
            }
        }
    }
}
