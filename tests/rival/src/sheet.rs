//! Reading the sheet: once for a run.

use crate::block::{self, Block};
use crate::name::is_name;
use second::block::{BUNDLE, Kind, LONGEST_NAME, MARKED_SHEET, MOST_PARAMETERS, SHEET, SUMMED};

pub struct Sheet<'a> {
    block: &'a Block,
    count: usize,
    /// The kind of each parameter; none for a bundle, and behind the last.
    pub kinds: [Option<Kind>; MOST_PARAMETERS],
    /// For each parameter the place of its bundle plus 1, or 0 at the top.
    bundles: [u8; MOST_PARAMETERS],
    /// Where in the block each name begins and ends.
    names: [(usize, usize); MOST_PARAMETERS],
}

impl<'a> Sheet<'a> {
    /// Reads a sheet, or tells the number of its refusal.
    pub fn read(bytes: &'a [u8]) -> Result<Sheet<'a>, u32> {
        let block: &Block = bytes.try_into().map_err(|_| 1u32)?;
        if !block::has_sum(block) {
            return Err(2);
        }
        Sheet::read_parameters(block).filter(Sheet::is_sound).ok_or(3)
    }

    /// The parameter with this name in a bundle, named by its place plus 1, or at the top, named by 0.
    pub fn find(&self, bundle: u8, name: &[u8]) -> Option<usize> {
        (0..self.count).find(|&place| self.bundles[place] == bundle && self.name(place) == name)
    }

    fn name(&self, place: usize) -> &'a [u8] {
        let (start, end) = self.names[place];
        &self.block[start..end]
    }

    fn read_parameters(block: &'a Block) -> Option<Sheet<'a>> {
        let is_marked = match block[0] {
            SHEET => false,
            MARKED_SHEET => true,
            _ => return None,
        };
        let head = if is_marked { 3 } else { 2 };
        let count = usize::from(block[1]);
        if count > MOST_PARAMETERS {
            return None;
        }
        let mut sheet = Sheet { block, count, kinds: [None; _], bundles: [0; _], names: [(0, 0); _] };
        let mut at = 2;
        for place in 0..count {
            let start = at + head;
            if start > SUMMED {
                return None;
            }
            let end = start + usize::from(block[start - 1]);
            if end > SUMMED || end - start > LONGEST_NAME || !is_name(&block[start..end]) {
                return None;
            }
            sheet.kinds[place] = Kind::from_number(block[at]);
            if sheet.kinds[place].is_none() && !(is_marked && block[at] == BUNDLE) {
                return None;
            }
            sheet.bundles[place] = if is_marked { block[at + 1] } else { 0 };
            sheet.names[place] = (start, end);
            at = end;
        }
        block::is_zero_from(block, at).then_some(sheet)
    }

    /// Whether members stand in bundles, bundles at the top, and names that are alike in two different bundles.
    fn is_sound(&self) -> bool {
        (0..self.count).all(|place| {
            let bundle = self.bundles[place];
            let is_placed = bundle == 0 || self.is_bundle(usize::from(bundle) - 1) && !self.is_bundle(place);
            let is_twin = |other: usize| {
                let are_apart = bundle > 0 && self.bundles[other] > 0 && bundle != self.bundles[other];
                !are_apart && self.name(other) == self.name(place)
            };
            is_placed && !(0..place).any(is_twin)
        })
    }

    fn is_bundle(&self, place: usize) -> bool {
        place < self.count && self.kinds[place].is_none()
    }
}
