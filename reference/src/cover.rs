//! Covers, and the two sheets that map and list hand over.

use crate::bits::Writer;
use crate::refusal::Refusal;
use crate::sheet::Sheet;
use crate::tree::TreeLeaf;

/// A pair of arrival and area.
#[derive(Clone, Copy, PartialEq, Eq, PartialOrd, Ord, Hash, Debug)]
pub struct Pair {
    pub arrival: u32,
    pub area: u32,
}

/// A match as a cover sheet states it.
#[derive(Clone, Copy, PartialEq, Eq, PartialOrd, Ord, Hash, Debug)]
pub struct Placed {
    pub node: usize,
    pub pattern: usize,
    pub crossing: u32,
}

impl Placed {
    pub fn new(node: usize, pattern: usize, crossing: u32) -> Placed {
        Placed { node, pattern, crossing }
    }
}

/// Matches are ascending by node.
#[derive(Clone, PartialEq, Eq, Debug)]
pub struct Cover {
    pub area: u32,
    pub arrival: u32,
    pub matches: Vec<Placed>,
}

impl Cover {
    /// Nothing, with the leaf's arrival under the load that it drives.
    pub fn of_leaf(leaf: TreeLeaf, load: u32) -> Cover {
        Cover { area: 0, arrival: leaf.arrival_under(load), matches: vec![] }
    }

    pub fn sheet(&self) -> Vec<u8> {
        let mut writer = Writer::new();
        writer.put(self.area, 22);
        writer.put(self.arrival, 24);
        writer.put(self.matches.len() as u32, 6);
        for placed in &self.matches {
            writer.put(placed.node as u32, 6);
            writer.put(placed.pattern as u32, 7);
            writer.put(placed.crossing, 5);
        }
        writer.finish()
    }

    /// This cover so far, with the cover of one more input, which is delayed.
    pub fn beside(&self, input: &Cover, delay: u32) -> Cover {
        Cover {
            area: self.area + input.area,
            arrival: self.arrival.max(input.arrival + delay),
            matches: [self.matches.as_slice(), &input.matches].concat(),
        }
    }
}

/// What a cover sheet states, be it true or not; refusals are numbered as those of a library.
pub fn decode(bytes: &[u8]) -> Result<Cover, Refusal> {
    let mut sheet = Sheet::new(bytes, 0);
    let cover = read(&mut sheet)?;
    sheet.end()?;
    Ok(cover)
}

/// The same of cover sheets in a row, each with its bytes.
pub fn decode_row(mut bytes: &[u8]) -> Result<Vec<(Cover, &[u8])>, Refusal> {
    let mut covers = Vec::new();
    while !bytes.is_empty() {
        let mut sheet = Sheet::new(bytes, 0);
        let cover = read(&mut sheet)?;
        let (first, others) = bytes.split_at(sheet.end_within()?);
        covers.push((cover, first));
        bytes = others;
    }
    Ok(covers)
}

/// The fields of a cover sheet, without the tail.
fn read(sheet: &mut Sheet) -> Result<Cover, Refusal> {
    let area = sheet.any(22)?.value;
    let arrival = sheet.any(24)?.value;
    let mut matches = Vec::new();
    for _ in 0..sheet.any(6)?.value {
        let node = sheet.any(6)?.value;
        let pattern = sheet.any(7)?.value;
        let crossing = sheet.any(5)?.value;
        matches.push(Placed::new(node as usize, pattern as usize, crossing));
    }
    Ok(Cover { area, arrival, matches })
}

/// The sheet of a list of trade-offs, earliest first.
pub fn list_sheet(trade_offs: &[Pair]) -> Vec<u8> {
    let mut writer = Writer::new();
    writer.put(trade_offs.len() as u32, 5);
    for pair in trade_offs {
        writer.put(pair.arrival, 24);
        writer.put(pair.area, 22);
    }
    writer.finish()
}
