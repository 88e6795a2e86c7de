//! Keys for two locks that open together, each after a mismatch of its own.

use crate::keys;
use crate::random::Random;
use model::{Controller, Counted};

/// Keys for both, of which the last ones open and no others do. There are none
/// for codes of one byte, or of bytes that do not count.
pub fn draw(random: &mut Random, locks: [&Controller; 2]) -> Option<Vec<(u8, u8)>> {
    let length = locks[0].password.len();
    if length < 2 || !locks.into_iter().all(keys::can_open) {
        return None;
    }
    let lead = 1 + random.below(length);
    for _ in 0..10 {
        let typed = locks.map(|lock| before_the_code(random, lock, lead));
        let [one, other] = &typed;
        if opens_at_the_end(locks[0], one) && opens_at_the_end(locks[1], other) {
            let one = keys_for(locks[0], one);
            let other = keys_for(locks[1], other);
            return Some(one.into_iter().zip(other).collect());
        }
    }
    None
}

/// The bytes of the code, behind a beginning of it that leads nowhere and other
/// bytes of it.
fn before_the_code(random: &mut Random, lock: &Controller, lead: usize) -> Vec<u8> {
    let code = lock.password.bytes();
    let beginning = 1 + random.below(lead.min(code.len() - 1));
    let mut typed: Vec<u8> = (beginning..lead).map(|_| random.pick(code)).collect();
    typed.extend(&code[..beginning]);
    typed.extend(code);
    typed
}

fn opens_at_the_end(lock: &Controller, typed: &[u8]) -> bool {
    let code = lock.password.bytes();
    let mut counted = Counted::first_of(code, lock.position());
    let opening = typed.iter().position(|&byte| {
        counted.count(byte);
        counted.end_with(code)
    });
    opening == Some(typed.len() - 1)
}

fn keys_for(lock: &Controller, bytes: &[u8]) -> Vec<u8> {
    let key = |&byte: &u8| keys::key_for(&lock.settings.table, byte);
    bytes.iter().filter_map(key).collect()
}

#[cfg(test)]
mod tests {
    use super::*;
    use crate::few_keys;
    use crate::under_settings::ORDINARY;

    /// Types at one of the locks; true when the last key opens and none before.
    fn opens(mut lock: Controller, keys: impl Iterator<Item = u8>) -> bool {
        let typed: Vec<bool> = keys
            .map(|key| {
                lock.event(4, model::frame(key));
                lock.locked
            })
            .collect();
        let (last, before) = typed.split_last().expect("some keys");
        !last && before.iter().all(|&locked| locked)
    }

    #[test]
    fn both_open_with_their_last_keys() {
        let mut random = Random::new(12);
        let mut drawn = 0;
        for _ in 0..500 {
            let length = few_keys::draw_length(&mut random);
            let locks = [0x1E, 0x2E].map(|byte| {
                let code = few_keys::draw_code(&mut random, &[byte, 0x30], length);
                few_keys::locked(ORDINARY, &code, random.below(length))
            });
            let Some(keys) = draw(&mut random, locks.each_ref()) else {
                continue;
            };
            drawn += 1;
            let [first, second] = locks;
            assert!(opens(first, keys.iter().map(|&(one, _)| one)));
            assert!(opens(second, keys.iter().map(|&(_, other)| other)));
        }
        assert!(drawn > 300, "{drawn}");
    }

    #[test]
    fn codes_that_cannot_open_have_none() {
        let mut random = Random::new(13);
        let lock = |code: &[u8]| few_keys::locked(ORDINARY, code, 0);
        let one_byte = lock(&[0x1E]);
        assert_eq!(draw(&mut random, [&one_byte, &one_byte]), None);
        let (open, shut) = (lock(&[0x1E, 0x30]), lock(&[0x1E, 0x9E]));
        assert_eq!(draw(&mut random, [&open, &shut]), None);
    }
}
