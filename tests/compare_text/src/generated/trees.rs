//! Random trees of elements, attributes, items, instances and values, with
//! names and definitions inline or shared.

use super::stock::{self, Stock};
use log_writer::{Random, Writer, BIN_XML};

/// What surrounds the place that is written.
#[derive(Clone, Copy)]
pub struct Scope<'k> {
    /// The types of the instance's values.
    pub kinds: &'k [u8],
    /// How many more elements may stand inside each other here.
    pub elements: usize,
    pub fragments: usize,
    /// Each element holds just one more, down to the bottom.
    pub chain: bool,
}

pub struct Trees<'s> {
    pub random: Random,
    pub stock: &'s Stock,
    /// Offsets of the names written so far.
    pub names: Vec<usize>,
    /// Offsets of the definitions written so far, and their values' types.
    pub definitions: Vec<(usize, Vec<u8>)>,
    /// How many more items a record may have.
    pub items_left: usize,
}

impl Trees<'_> {
    /// A fragment's content after its header.
    pub fn content(&mut self, w: &mut Writer, scope: Scope) {
        if self.random.once_in(4) {
            self.element(w, Scope { kinds: &[], ..scope });
        } else {
            self.instance(w, scope);
        }
    }

    fn instance(&mut self, w: &mut Writer, scope: Scope) {
        w.instance_start();
        let shared = !self.definitions.is_empty() && self.random.once_in(2);
        let kinds = if shared {
            let index = self.random.below(self.definitions.len());
            let (offset, kinds) = self.definitions[index].clone();
            w.pointer(offset);
            kinds
        } else {
            w.pointer_here();
            self.definition(w, scope)
        };
        w.values_of(&kinds, |w, index| self.value(w, kinds[index], scope));
    }

    /// A definition, which later instances may share. Answers its values' types.
    pub fn definition(&mut self, w: &mut Writer, scope: Scope) -> Vec<u8> {
        let kinds = stock::kinds(&mut self.random);
        let offset = w.here();
        w.bare_definition(|w| self.element(w, Scope { kinds: &kinds, ..scope }));
        self.definitions.push((offset, kinds.clone()));
        kinds
    }

    fn value(&mut self, w: &mut Writer, kind: u8, scope: Scope) {
        if kind != BIN_XML {
            let bytes = self.stock.bytes(&mut self.random, kind);
            return w.plain_value(&bytes);
        }
        if scope.fragments == 0 || self.random.once_in(5) {
            return;
        }
        let inner = Scope { fragments: scope.fragments - 1, kinds: &[], ..scope };
        w.fragment(|w| self.content(w, inner));
    }

    /// A name at the next offset, or one that is there already.
    fn name(&mut self, w: &mut Writer) {
        if !self.names.is_empty() && self.random.once_in(2) {
            let index = self.random.below(self.names.len());
            return w.pointer(self.names[index]);
        }
        w.pointer_here();
        self.names.push(w.here());
        let name = stock::name(&mut self.random);
        w.bare_name(&name);
    }

    pub fn element(&mut self, w: &mut Writer, scope: Scope) {
        let attributes = self.random.pick(&[0, 0, 0, 1, 2, 3]);
        let token = if attributes == 0 { 0x01 } else { 0x41 };
        w.element(token, |w| {
            self.name(w);
            if attributes > 0 {
                w.counted(|w| (0..attributes).for_each(|_| self.attribute(w, scope)));
            }
            self.items(w, Scope { elements: scope.elements.saturating_sub(1), ..scope });
        });
    }

    fn items(&mut self, w: &mut Writer, scope: Scope) {
        if scope.chain && scope.elements > 0 {
            return w.items(|w| self.element(w, scope));
        }
        if self.random.once_in(4) {
            return w.token(0x03);
        }
        let count = self.random.pick(&[0, 1, 1, 2, 3, 6]);
        w.items(|w| (0..count).for_each(|_| self.item(w, scope)));
    }

    fn item(&mut self, w: &mut Writer, scope: Scope) {
        self.items_left = self.items_left.saturating_sub(1);
        let element = scope.elements > 0 && self.items_left > 0;
        match self.random.below(5) {
            0 | 1 if element => self.element(w, scope),
            2 => self.literal(w),
            _ => self.substitution(w, scope, false),
        }
    }

    fn attribute(&mut self, w: &mut Writer, scope: Scope) {
        w.token(self.random.pick(&[0x06, 0x46]));
        self.name(w);
        for _ in 0..self.random.pick(&[0, 1, 1, 1, 2, 3]) {
            if self.random.once_in(3) {
                self.literal(w);
            } else {
                self.substitution(w, scope, true);
            }
        }
    }

    fn literal(&mut self, w: &mut Writer) {
        let units = stock::units(&mut self.random);
        let at = w.bytes.len();
        w.units(&units);
        w.bytes[at] = self.random.pick(&[0x05, 0x45]);
    }

    /// Mostly a literal where there is no value that could be shown.
    fn substitution(&mut self, w: &mut Writer, scope: Scope, in_attribute: bool) {
        let fits = |kind: u8| !(in_attribute && kind == BIN_XML);
        let all = 0..scope.kinds.len();
        let numbers: Vec<usize> = match self.random.once_in(60) {
            true => all.collect(),
            false => all.filter(|number| fits(scope.kinds[*number])).collect(),
        };
        match numbers.len() {
            // Where there are no values every number is refused.
            0 if self.random.once_in(12) => {
                w.substitution(self.random.pick(&[0x0d, 0x0e]), self.random.below(3));
            }
            0 => self.literal(w),
            _ => w.substitution(self.random.pick(&[0x0d, 0x0e]), self.random.pick(&numbers)),
        }
    }
}
