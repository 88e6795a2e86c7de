//! Trailers put together field by field, right or wrong.

use model::Edition;

#[derive(Clone, Copy, Debug, PartialEq, Eq)]
pub struct Trailer {
    pub distance: u16,
    pub sum: u16,
    pub edition: u8,
    pub mark: [u8; 3],
}

impl Trailer {
    /// What an edition asks for behind some bytes, which may be too few or too
    /// many for its body. The sum is of the last ones, as many as the body has.
    pub fn of(edition: Edition, bytes: &[u8]) -> Trailer {
        let start = bytes.len().saturating_sub(edition.body_size());
        Trailer {
            distance: edition.body_size() as u16,
            sum: model::word_sum(&bytes[start..]),
            edition: edition.number(),
            mark: [0x4B, 0x42, 0x43],
        }
    }

    pub fn behind(self, bytes: &[u8]) -> Vec<u8> {
        let [distance_low, distance_high] = self.distance.to_le_bytes();
        let [sum_low, sum_high] = self.sum.to_le_bytes();
        let fields = [distance_low, distance_high, sum_low, sum_high, self.edition];
        [bytes, &fields, &self.mark].concat()
    }
}

#[cfg(test)]
mod tests {
    use super::*;
    use crate::images;
    use crate::random::Random;

    #[test]
    fn right_trailers_are_those_of_images() {
        let mut random = Random::new(7);
        for edition in Edition::ALL {
            let image = images::image_of(&mut random, edition);
            let body = &image[..edition.body_size()];
            assert_eq!(Trailer::of(edition, body).behind(body), image);
        }
    }
}
