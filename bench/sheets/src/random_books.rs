//! Random books that are accepted.

use crate::families::Filling;
use crate::nests::Style;
use crate::nodes::book;
use crate::random::Random;

/// A random book of a weight at most, without at-leasts.
pub fn random_book(random: &mut Random, weight: usize) -> Vec<u8> {
    book_with_leasts(random, weight, 0)
}

/// A random book of a weight at most; as many in a hundred of its groups are at-leasts.
pub fn book_with_leasts(random: &mut Random, weight: usize, leasts: usize) -> Vec<u8> {
    let few = random.below(5);
    let many = weight.min(512);
    let options = random.pick(&[few, many / 4, many]);
    let style = Style {
        leasts,
        ..Style::any(random, options)
    };
    let largest = random.within(1, weight);
    let mut filling = Filling::new(weight);
    let mut misses = 0;
    while misses < 3 {
        let body = style.rule(random, largest);
        misses += usize::from(!filling.put(body) || random.one_in(4));
    }
    book(options, &filling.bodies)
}
