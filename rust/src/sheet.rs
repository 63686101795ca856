//! A sheet as people speak of it: its parameters by their paths, and what is wrong with one that is refused.

use crate::block::{self, Item, SIZE, Sort};
use crate::kind::{self, BUNDLE};
use crate::spelling::spell;
use crate::{Refusal, check};

/// A parameter of a sheet.
#[derive(Clone, Debug, PartialEq, Eq)]
pub struct Parameter {
    /// The number of its kind.
    pub kind: u8,
    /// 0 at the top, or the place of its bundle plus 1.
    pub bundle: u8,
    pub name: Vec<u8>,
}

impl Parameter {
    /// A parameter at the top; [`kind`] has the numbers of the kinds.
    #[must_use]
    pub fn new(kind: u8, name: impl Into<Vec<u8>>) -> Parameter {
        Parameter { kind, bundle: 0, name: name.into() }
    }

    /// The same as a member of the bundle that stands at a place of the sheet.
    #[must_use]
    pub fn in_bundle(self, place: u8) -> Parameter {
        Parameter { bundle: place.saturating_add(1), ..self }
    }

    fn item(&self) -> Item<'_> {
        Item { byte: self.kind, mark: self.bundle, text: &self.name }
    }
}

/// Whether a sheet of these parameters needs the newer form.
#[must_use]
pub fn has_bundles(parameters: &[Parameter]) -> bool {
    parameters.iter().any(|parameter| parameter.kind == BUNDLE || parameter.bundle > 0)
}

/// How many bytes parameters take on a sheet.
#[must_use]
pub fn size(parameters: &[Parameter]) -> usize {
    let marked = has_bundles(parameters);
    parameters.iter().map(|parameter| parameter.item().size(marked)).sum()
}

/// A sheet: its block, and its parameters as far as they can be read.
#[derive(Clone, Debug, Default)]
pub struct Sheet {
    pub block: Vec<u8>,
    pub parameters: Vec<Parameter>,
}

impl Sheet {
    /// Takes a block apart; what is no sheet has no parameters.
    #[must_use]
    pub fn read(block: Vec<u8>) -> Sheet {
        let parameter = |item: Item| Parameter { kind: item.byte, bundle: item.mark, name: item.text.to_vec() };
        let is_sheet = block.len() == SIZE && Sort::of(&block) == Sort::Sheet;
        let parameters = if is_sheet { block::items(&block).map(parameter).collect() } else { Vec::new() };
        Sheet { block, parameters }
    }

    /// Writes a sheet, if there is room for the parameters.
    #[must_use]
    pub fn write(parameters: Vec<Parameter>) -> Option<Sheet> {
        let marked = has_bundles(&parameters);
        Sheet::write_as(parameters, marked)
    }

    /// Writes a sheet in the form that may have bundles, or in the older one.
    pub fn write_as(parameters: Vec<Parameter>, marked: bool) -> Option<Sheet> {
        let items: Vec<Item> = parameters.iter().map(Parameter::item).collect();
        let block = block::write_sheet(&items, marked)?;
        Some(Sheet { block, parameters })
    }

    /// The library's refusal of the sheet, if it is not sound.
    #[must_use]
    pub fn refusal(&self) -> Option<Refusal> {
        check(&self.block, b"x pr true").err().filter(|refusal| refusal.number <= 3)
    }

    /// The place of the parameter that has this name at the top (0) or in a bundle (its place plus 1).
    #[must_use]
    pub fn find(&self, bundle: u8, name: &[u8]) -> Option<usize> {
        self.parameters.iter().position(|parameter| parameter.bundle == bundle && parameter.name == name)
    }

    /// The bundle of this name, as its members have it: its place plus 1.
    #[must_use]
    pub fn find_bundle(&self, name: &[u8]) -> Option<u8> {
        let place = self.find(0, name).filter(|&place| self.parameters[place].kind == BUNDLE)?;
        u8::try_from(place + 1).ok()
    }

    /// The places of a bundle's members, the bundle given as they have it; 0 is the top.
    pub fn members(&self, bundle: u8) -> impl Iterator<Item = usize> {
        (0..self.parameters.len()).filter(move |&place| self.parameters[place].bundle == bundle)
    }

    /// The name of a place's parameter, spelled.
    #[must_use]
    pub fn name(&self, place: usize) -> String {
        self.parameters.get(place).map_or_else(|| format!("place {place}?"), |parameter| spell(&parameter.name))
    }

    /// The path of a place's parameter as a description has it, with the occurrence: `related#1.type`.
    #[must_use]
    pub fn path(&self, place: usize, occurrence: u8) -> String {
        let number = if occurrence > 0 { format!("#{occurrence}") } else { String::new() };
        match self.parameters.get(place).map_or(0, |parameter| parameter.bundle) {
            0 => format!("{}{number}", self.name(place)),
            bundle => format!("{}{number}.{}", self.name(usize::from(bundle) - 1), self.name(place)),
        }
    }

    /// The paths of all parameters that have texts.
    #[must_use]
    pub fn paths(&self) -> Vec<String> {
        let with_texts = (0..self.parameters.len()).filter(|&place| self.parameters[place].kind != BUNDLE);
        with_texts.map(|place| self.path(place, 0)).collect()
    }

    /// A filter that the sheet gives a meaning, if it has a parameter with texts: whether one is there.
    #[must_use]
    pub fn some_filter(&self) -> Option<String> {
        let place = self.parameters.iter().position(|parameter| parameter.kind != BUNDLE)?;
        let name = self.name(place);
        Some(match self.parameters[place].bundle {
            0 => format!("{name} pr true"),
            bundle => format!("{}[{name} pr true].{name} pr true", self.name(usize::from(bundle) - 1)),
        })
    }

    /// What is wrong with the parameter at a place, if it is why the library refuses the sheet.
    #[must_use]
    pub fn fault(&self, place: usize) -> Option<String> {
        self.own_fault(place).or_else(|| {
            let other = (0..place).find(|&other| self.own_fault(other).is_none() && self.collide(other, place))?;
            let [path, other_path] = [place, other].map(|place| self.path(place, 0));
            Some(format!("{path} has the same name as {other_path} at place {other}. Rename one of them."))
        })
    }

    /// What is wrong with a parameter whatever the others are called.
    fn own_fault(&self, place: usize) -> Option<String> {
        let Parameter { kind, bundle, name } = &self.parameters[place];
        let path = self.path(place, 0);
        if kind::by_number(*kind).is_none() {
            return Some(format!("{path} has kind {kind}, which no kind has."));
        }
        if !kind::is_name(name) {
            return Some(format!(
                "{path} is not allowed as a name. A name begins with a letter or _, goes on with letters, digits, _ and -, \
                 has at most 30 bytes, and is not and, or or not."
            ));
        }
        if *kind == BUNDLE && !block::is_marked(&self.block) {
            return Some(format!(
                "{path} is a bundle, and a sheet that begins with 0x50 has none: it begins with 0x51."
            ));
        }
        if *bundle > 0 {
            let own = usize::from(*bundle) - 1;
            if *kind == BUNDLE {
                return Some(format!("{path} is a bundle in a bundle. Put it at the top, under a name without a dot."));
            }
            if self.parameters.get(own).is_none_or(|parameter| parameter.kind != BUNDLE) {
                return Some(format!("{path} is a member of {}, which is no bundle.", self.name(own)));
            }
        }
        None
    }

    /// Whether the library refuses a sheet that has these two parameters, and their bundles, and no others.
    fn collide(&self, one: usize, other: usize) -> bool {
        let mut places = vec![one, other];
        for place in [one, other] {
            let bundle = usize::from(self.parameters[place].bundle);
            if bundle > 0 && !places.contains(&(bundle - 1)) {
                places.push(bundle - 1);
            }
        }
        let moved = |bundle: u8| (1..).zip(&places).find(|(_, place)| **place + 1 == usize::from(bundle));
        let parameters = places.iter().filter_map(|&place| self.parameters.get(place).cloned());
        let parameters = parameters.map(|mut parameter| {
            parameter.bundle = moved(parameter.bundle).map_or(0, |(moved, _)| moved);
            parameter
        });
        Sheet::write(parameters.collect()).is_some_and(|sheet| sheet.refusal().is_some())
    }

    /// What is wrong with the sheet, in sentences, where the library refuses it with 3.
    #[must_use]
    pub fn faults(&self) -> Vec<String> {
        let mut found = Vec::new();
        if self.block.len() == SIZE {
            match Sort::of(&self.block) {
                Sort::Sheet => found.extend(block::faults(&self.block).iter().map(|fault| format!("It has {fault}."))),
                Sort::Card => found.push("It is a card.".into()),
                Sort::Neither => found.push("Its first byte is that of neither a sheet nor a card.".into()),
            }
        }
        found.extend((0..self.parameters.len()).filter_map(|place| self.fault(place)));
        found
    }
}

#[cfg(test)]
mod tests {
    use super::*;

    fn parameter(kind: u8, bundle: u8, name: &str) -> Parameter {
        Parameter { kind, bundle, name: name.into() }
    }

    /// A member stands before its bundle, and two bundles share a member's name.
    #[test]
    fn bundles_and_members() {
        let parameters = vec![
            parameter(4, 2, "type"),
            parameter(BUNDLE, 0, "related"),
            parameter(BUNDLE, 0, "b"),
            parameter(3, 3, "type"),
            parameter(1, 0, "title"),
        ];
        let sheet = Sheet::write(parameters).unwrap();
        assert_eq!(sheet.refusal(), None);
        assert!(sheet.faults().is_empty());
        assert_eq!(sheet.path(0, 2), "related#2.type");
        assert_eq!(sheet.paths(), ["related.type", "b.type", "title"]);
        assert_eq!(sheet.find_bundle(b"b"), Some(3));
        assert_eq!(sheet.find(3, b"type"), Some(3));
        let filter = sheet.some_filter().unwrap();
        assert_eq!(check(&sheet.block, filter.as_bytes()), Ok(2));
        assert_eq!(Sheet::read(sheet.block.clone()).parameters, sheet.parameters);
    }

    /// Whatever the library refuses, a sentence says what it is.
    #[test]
    fn faults_are_told() {
        let bundle = |name| parameter(BUNDLE, 0, name);
        let faulty = [
            vec![parameter(9, 0, "a")],
            vec![parameter(1, 0, "and")],
            vec![parameter(1, 0, "a"), parameter(3, 0, "a")],
            vec![bundle("a"), parameter(4, 1, "c"), parameter(4, 1, "c")],
            vec![bundle("a"), parameter(4, 1, "c"), parameter(4, 0, "c")],
            vec![bundle("a"), parameter(4, 1, "a")],
            vec![bundle("a"), bundle("b"), parameter(4, 1, "b")],
            vec![bundle("a"), bundle("a")],
            vec![bundle("a"), parameter(BUNDLE, 1, "b")],
            vec![parameter(1, 0, "a"), parameter(1, 1, "b")],
            vec![parameter(1, 33, "a")],
        ];
        for parameters in faulty {
            let sheet = Sheet::write(parameters).unwrap();
            assert_eq!(sheet.refusal().map(|refusal| refusal.number), Some(3), "{:?}", sheet.parameters);
            assert_eq!(sheet.faults().len(), 1, "{:?}", sheet.faults());
        }
    }
}
