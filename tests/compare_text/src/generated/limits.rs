//! Questions around the limits of depth and count.

use super::stock::Stock;
use crate::question::Question;
use log_writer::*;

/// What stands in the innermost value of nested fragments.
#[derive(Clone, Copy)]
enum Innermost {
    Number,
    NoFragment,
    Element,
    Garbage,
}

const INNERMOST: [Innermost; 4] =
    [Innermost::Number, Innermost::NoFragment, Innermost::Element, Innermost::Garbage];

/// `elements` elements inside each other around value 0.
fn around_value(w: &mut Writer, elements: usize) {
    w.open("e", |w| match elements {
        1 => w.substitution(0x0d, 0),
        _ => around_value(w, elements - 1),
    });
}

/// Instances inside each other's value, with the given numbers of elements.
fn nest(w: &mut Writer, elements: &[usize], innermost: Innermost) {
    let (first, inner) = elements.split_first().expect("one level or more");
    let deeper = |w: &mut Writer| nest(w, inner, innermost);
    let element = |w: &mut Writer| w.open("i", |w| w.empty("j"));
    let value = match innermost {
        _ if !inner.is_empty() => Value::Fragment(&deeper),
        Innermost::Number => plain(0x04, [5]),
        Innermost::NoFragment => plain(BIN_XML, []),
        Innermost::Element => Value::Fragment(&element),
        Innermost::Garbage => plain(BIN_XML, [0xff]),
    };
    w.instance(|w| around_value(w, *first), &[value]);
}

/// Nested fragments, about as many as the limit allows, with about as many
/// elements over all of them.
pub fn nested(random: &mut Random, _: &Stock, _: usize) -> Vec<Question> {
    let levels = random.between(5, 10);
    let wanted = random.pick(&[levels, levels + 3, 29, 30, 31, 32, 33]);
    let mut elements = vec![1; levels];
    (levels..wanted).for_each(|_| elements[random.below(levels)] += 1);
    let innermost = random.pick(&INNERMOST);
    vec![Question::new("", one_record(|w| nest(w, &elements, innermost)))]
}

/// `<e/>` with an attribute that is left out: it counts three.
fn left_out(w: &mut Writer) {
    w.with_attributes("e", |w| w.attribute("a", |w| w.substitution(0x0e, 0)));
}

/// What may stand where the count is near the limit.
fn last(w: &mut Writer, which: usize) {
    match which {
        0 => w.literal("x"),
        1 => left_out(w),
        2 => w.put(&[0x05, 0x02, 0, 0]),
        3 => w.put(&[0x0d, 9, 9, 0]),
        4 => w.put(&[0x01, 0, 0, 0xff, 0xff, 0, 0]),
        5 => w.put(&[0x99]),
        _ => w.open("f", |w| w.substitution(0x0d, 0)),
    }
}

/// The things counted come up to the limit or a few less, and then one thing
/// more: a fragment is read over and over, and literals fill what is left.
pub fn counts(random: &mut Random, _: &Stock, round: usize) -> Vec<Question> {
    let literals = random.between(50, 300);
    let elements = random.between(1, 60);
    let each = 1 + 1 + literals + 3 * elements;
    let outer = 65_000 / each;
    let (which, left) = (round % 7, round / 7 % 6);
    let rest = 65_536 - left - 1 - outer * each;
    let fragment = |w: &mut Writer| {
        let inner = |w: &mut Writer| {
            w.open("i", |w| {
                (0..literals).for_each(|_| w.literal(""));
                (0..elements).for_each(|_| left_out(w));
            });
        };
        w.instance(inner, &[plain(0x00, [])]);
    };
    let chunk = one_record(|w| {
        let element = |w: &mut Writer| {
            w.open("o", |w| {
                (0..outer).for_each(|_| w.substitution(0x0d, 1));
                (0..rest).for_each(|_| w.literal(""));
                last(w, which);
            });
        };
        w.instance(element, &[plain(0x00, []), Value::Fragment(&fragment)]);
    });
    vec![Question::new("", chunk)]
}
