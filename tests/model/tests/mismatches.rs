//! Mismatches: keys at the lock that are not the next of the code, but may be a
//! start of it.

mod host;

use host::{Host, IN_AT_MODE};
use model::{Counted, Settings, load, mode, save};

const BROKEN: u16 = 1022;
const WRONG_PARITY: u16 = 0x428;
const NOISE: u16 = 2047;
const PREFIX: u8 = 0xF0;
/// P1 with the key switch turned.
const TURNED: u8 = 0x7F;

/// The keys A and B and one more, which give 1Eh, 30h and 2Eh.
const A: u8 = 0x1C;
const B: u8 = 0x32;
const OTHER: u8 = 0x21;

/// The code in letters, as the keys give it.
fn code(letters: &str) -> Vec<u8> {
    let byte = |letter| if letter == 'a' { 0x1E } else { 0x30 };
    letters.chars().map(byte).collect()
}

fn locked(letters: &str) -> Host {
    Host::locked_with(&code(letters))
}

impl Host {
    /// Types a, b and, for any other letter, the key that is in no code here.
    fn types(&mut self, letters: &str) -> &mut Host {
        for letter in letters.chars() {
            self.key(match letter {
                'a' => A,
                'b' => B,
                _ => OTHER,
            });
        }
        self
    }

    fn is_shut_at(&self, position: usize) {
        assert!(self.state.locked);
        assert_eq!(self.state.position(), position);
    }

    fn is_open(&self) {
        assert!(!self.state.locked);
        assert_eq!(self.state.position(), 0);
    }

    /// Open, with a byte that a later key has put.
    fn is_open_already(&self) {
        self.is_open();
        assert!(self.state.full);
    }
}

#[test]
fn the_code_typed_at_once_opens() {
    locked("ab").types("ab").is_open();
    locked("a").types("a").is_open();
    locked("aab").types("aab").is_open();
}

#[test]
fn one_key_too_many_before_the_code_opens() {
    let mut host = locked("aab");
    host.types("aaa").is_shut_at(2);
    host.types("b").is_open();
}

#[test]
fn the_start_of_the_code_before_the_code_opens() {
    let mut host = locked("aab");
    host.types("aba").is_shut_at(1);
    host.types("ab").is_open();
}

#[test]
fn only_the_last_keys_are_looked_at() {
    locked("ab").types("aab").is_open();
    locked("ab").types("xxabx").is_open_already();
    locked("aab").types("bbabaxbaab").is_open();
    let mut host = locked("ab");
    for _ in 0..5_000 {
        host.types("aax").is_shut_at(0);
    }
    host.types("ab").is_open();
}

#[test]
fn a_mismatch_keeps_as_much_as_it_can() {
    // The code, what is typed, and how much of the code that ends with.
    for (letters, typed, position) in [
        ("aab", "aaaaaa", 2),
        ("abab", "aba", 3),
        ("ababb", "ababa", 3),
        ("ababb", "abababa", 3),
        ("abaabab", "abaaba", 6),
        // Neither the longest part nor the next one goes on with this key.
        ("abaabaa", "abaabab", 2),
        ("abaabaa", "abaabax", 0),
        ("bbbba", "bbbbbbb", 4),
        ("aabaaab", "aabaab", 3),
        ("aaaaaab", "aaab", 0),
    ] {
        let mut host = locked(letters);
        host.types(typed).is_shut_at(position);
        // The rest of the code opens.
        let rest: String = letters.chars().skip(position).collect();
        host.types(&rest).is_open();
    }
}

/// By the definition alone, of keys that would have opened too.
#[test]
fn position_of_keys_that_were_counted() {
    let position = |letters: &str, typed: &str| {
        let mut counted = Counted::NONE;
        for key in code(typed) {
            counted.count(key);
        }
        counted.position(&code(letters))
    };
    assert_eq!(position("a", ""), 0);
    assert_eq!(position("a", "a"), 0);
    assert_eq!(position("aa", "a"), 1);
    assert_eq!(position("aa", "aaaa"), 1);
    assert_eq!(position("aba", "aba"), 1);
    assert_eq!(position("abab", "abab"), 2);
    assert_eq!(position("abab", "bbaba"), 3);
    assert_eq!(position("abab", "ababb"), 0);
    assert_eq!(position("aabaab", "aabaab"), 3);
    assert_eq!(position("aabaaa", "aabaab"), 3);
    assert_eq!(position("aabaab", "baabaa"), 5);
    assert_eq!(position("aabaab", "aaaa"), 2);
    assert_eq!(position("", "ab"), 0);
}

#[test]
fn the_longest_code_opens_after_mismatches() {
    let letters = "aaaaaaaaaaaaaaab";
    let mut host = locked(letters);
    host.types("aaaaaaaaaaaaaaa").is_shut_at(15);
    host.types("aaaaaaaaa").is_shut_at(15);
    host.types("b").is_open();
    let letters = "abababababababab";
    let mut host = locked(letters);
    host.types("abababababababa").is_shut_at(15);
    host.types("a").is_shut_at(1);
    host.types("babababababababb").is_open_already();
}

#[test]
fn damage_starts_counting_afresh() {
    for damaged in [BROKEN, WRONG_PARITY] {
        let mut host = locked("aab");
        host.types("aa").keyboard_frame(damaged);
        host.is_shut_at(0);
        host.types("b").is_shut_at(0);
        host.types("a").keyboard_frame(damaged);
        host.types("ab").is_shut_at(0);
        host.types("aaab").is_open();
    }
}

#[test]
fn damage_under_inhibit_starts_counting_afresh() {
    for damaged in [BROKEN, WRONG_PARITY] {
        let mut host = locked("ab");
        host.types("a").pins(TURNED);
        host.keyboard_frame(damaged);
        host.pins(0xFF);
        host.types("b").is_shut_at(0);
    }
}

#[test]
fn noise_and_the_mouse_do_not() {
    for letters in ["aab", "aaa"] {
        let mut host = locked(letters);
        host.types("a").keyboard_frame(NOISE);
        host.types("a").mouse_frame(NOISE);
        host.is_shut_at(2);
        for frame in [BROKEN, WRONG_PARITY, 0x628] {
            host.mouse_frame(frame);
        }
        host.is_shut_at(2);
        host.types(&letters[2..]).is_open();
    }
}

/// The keys of the code itself, so that counting them would open or lose it.
#[test]
fn ignored_keys_are_not_counted() {
    let mut host = Host::ready();
    host.command_with(0x76, 0x2E);
    host.command_with(0x77, 0x30);
    host.lock(&code("aaa"));
    host.types("a").keys(&[PREFIX, A]);
    host.types("xb").is_shut_at(1);
    // 00h gives FFh.
    host.types("a").keys(&[PREFIX, B, 0x00]);
    host.types("bx").is_shut_at(2);
    host.types("a").is_open();
}

#[test]
fn swallowed_keys_are_not_counted() {
    let mut host = locked("aab");
    host.types("aa").pins(TURNED);
    host.types("abx").is_shut_at(2);
    host.pins(0xFF);
    host.types("b").is_open();
    let mut host = locked("aab");
    host.pins(TURNED);
    host.types("aab").is_shut_at(0);
}

#[test]
fn keys_past_the_inhibit_are_counted() {
    let mut host = Host::ready();
    host.command_with(0x60, mode::INHIBIT_OVERRIDE);
    host.lock(&code("aab"));
    host.pins(TURNED);
    host.types("aaab").is_open();
}

#[test]
fn refused_keys_are_not_counted() {
    let mut host = locked("aab");
    host.types("aa");
    assert_eq!(host.event(4, model::frame(B) | 0x800).refusal, 2);
    assert_eq!(host.event(3, 0xA6).refusal, 4);
    assert_eq!(host.event(1, 0x1E).refusal, 4);
    host.is_shut_at(2);
    let mut host = Host::ready();
    host.command_with(0x73, 0xC3);
    host.lock(&code("aab"));
    for key in [A, A, B] {
        assert_eq!(host.event(4, model::frame(key)).refusal, 5);
    }
    host.read();
    host.is_shut_at(0);
    host.types("aab").is_open();
}

#[test]
fn locking_anew_starts_counting_afresh() {
    let mut host = locked("aba");
    host.types("aba").is_open();
    host.command(0xA6);
    host.is_shut_at(0);
    host.types("ba").is_shut_at(1);
    host.types("ba").is_open();
}

/// Keys that come while it is open are put, and are none of those counted.
#[test]
fn keys_before_locking_are_not_counted() {
    let mut host = Host::ready();
    host.load(&code("ab"));
    host.types("a").read();
    host.command(0xA6);
    host.types("b").is_shut_at(0);
}

fn loaded(host: &Host) -> Host {
    Host {
        state: load(0, &save(&host.state)).expect("an image"),
    }
}

#[test]
fn a_load_in_the_middle_goes_on() {
    for (letters, typed) in [
        ("aab", "aaaa"),
        ("ababb", "bababa"),
        ("abaabaa", "abaabab"),
        ("aab", "b"),
        ("abab", "aaaba"),
    ] {
        let mut host = locked(letters);
        host.types(typed);
        let mut other = loaded(&host);
        assert_eq!(other.state, host.state);
        for letter in "aabababbaaabaabaabab".chars() {
            let letter = letter.to_string();
            host.types(&letter);
            other.types(&letter);
            assert_eq!(other.state, host.state, "{letters} after {typed}");
            if !host.state.locked {
                break;
            }
        }
    }
}

fn made_by_hand(settings: Settings, letters: &str, position: usize) -> Host {
    let mut host = Host::ready_under(settings);
    for byte in code(letters) {
        host.state.password.push(byte);
    }
    host.state.locked = true;
    host.state.count_first(position);
    host
}

#[test]
fn the_first_bytes_are_counted_after_a_load() {
    for position in 0..5 {
        let mut host = loaded(&made_by_hand(Settings::ORDINARY, "ababb", position));
        host.is_shut_at(position);
        host.types(&"ababb"[position..]).is_open();
    }
    let mut host = loaded(&made_by_hand(Settings::ORDINARY, "ababb", 4));
    host.types("a").is_shut_at(3);
    host.types("bb").is_open();
}

/// No key gives 9Eh, so only a load counts it.
#[test]
fn a_position_that_no_keys_reach_is_taken_as_it_is() {
    let code = [0x1E, 0x9E, 0x1E, 0x9E, 0x30];
    let mut host = Host::ready();
    for byte in code {
        host.state.password.push(byte);
    }
    host.state.locked = true;
    host.state.count_first(4);
    let mut host = loaded(&host);
    host.is_shut_at(4);
    loaded(&host).types("b").is_open();
    host.types("a").is_shut_at(3);
    host.types("b").is_shut_at(0);
    host.types("ab").is_shut_at(0);
}

/// No events shut the lock in AT mode, but it opens there as anywhere.
#[test]
fn a_lock_that_is_shut_in_at_mode_opens_after_a_mismatch() {
    for settings in IN_AT_MODE {
        let mut host = made_by_hand(settings, "aab", 0);
        host.types("aaa").is_shut_at(2);
        assert_eq!(host.event(5, BROKEN).refusal, 12);
        host.types("b").is_open();
        let mut host = made_by_hand(settings, "aab", 2);
        host.keyboard_frame(BROKEN);
        host.types("b").is_shut_at(0);
    }
}

#[test]
fn equal_states_may_have_counted_other_keys() {
    let at = |typed: &str| {
        let mut host = locked("aab");
        host.types(typed);
        host.state
    };
    assert_eq!(at("aaaaaa"), at("baa"));
    assert_eq!(at("bbb"), at(""));
    assert_ne!(at("a"), at("aa"));
    let mut other = locked("aba");
    other.types("aa");
    assert_ne!(other.state, at("a"));
}
