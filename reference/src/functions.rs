//! The judge of functions: every drawing is worked out at one setting of its cell's pins after another, and compared
//! with the bit that the function sheet has for that setting.

use crate::bits::Writer;
use crate::library::{self, Library};
use crate::refusal::{Refusal, IN_FUNCTIONS, OTHER_FUNCTION, TRUNCATED};
use crate::shape::{Node, Shape};
use crate::sheet::Sheet;

/// A function of a cell's pins: its value at every setting, in the order of the function sheet.
pub type Function = Vec<bool>;

/// How many settings so many pins have, and so the bits of a cell's field.
pub fn settings(pins: usize) -> usize {
    1 << pins
}

/// What a pin is at a setting. Settings are numbered as they stand on the sheet, from all zeros up with pin 0 changing
/// fastest: a pin is the binary digit of its number, the lowest that of pin 0.
pub fn pin_value(pin: u32, setting: usize) -> bool {
    setting >> pin & 1 == 1
}

/// What a drawing computes at a setting.
fn value(drawing: &Shape, setting: usize) -> bool {
    node_value(drawing, 0, setting)
}

fn node_value(drawing: &Shape, node: usize, setting: usize) -> bool {
    match drawing.nodes[node] {
        Node::Leaf(pin) => pin_value(pin, setting),
        Node::Inv(below) => !node_value(drawing, below, setting),
        Node::Nand(first, second) => !(node_value(drawing, first, setting) && node_value(drawing, second, setting)),
    }
}

/// The function that a drawing computes; each pin stands at one of its leaves.
pub fn computed(drawing: &Shape) -> Function {
    let pins = drawing.leaves().count();
    (0..settings(pins)).map(|setting| value(drawing, setting)).collect()
}

fn computes(drawing: &Shape, function: &Function) -> bool {
    function.iter().enumerate().all(|(setting, &stated)| value(drawing, setting) == stated)
}

/// The numbers of the patterns that compute another function than their cell's, as far as there are functions.
pub fn others<'a>(library: &'a Library, functions: &'a [Function]) -> impl Iterator<Item = usize> + 'a {
    let of_cells = library.cells.iter().zip(functions);
    let drawings = of_cells.flat_map(|(cell, function)| cell.patterns.iter().map(move |drawing| (drawing, function)));
    drawings.enumerate().filter(|(_, (drawing, function))| !computes(drawing, function)).map(|(pattern, _)| pattern)
}

/// The numbers of cells and patterns of a sound library whose drawings all compute their cells' functions. The sheet is
/// read to its end before a drawing is looked at.
pub fn judge(library: &[u8], functions: &[u8]) -> Result<(usize, usize), Refusal> {
    let library = library::decode(library)?;
    let functions = decode(&library, functions)?;
    let first = others(&library, &functions).next();
    match first {
        Some(pattern) => Err(Refusal::new(OTHER_FUNCTION, pattern)),
        None => Ok((library.cells.len(), library.pattern_count())),
    }
}

/// The function of each cell, held ones too, that a sheet holds.
pub fn decode(library: &Library, bytes: &[u8]) -> Result<Vec<Function>, Refusal> {
    let mut sheet = Sheet::new(bytes, IN_FUNCTIONS);
    let functions =
        library.cells.iter().map(|cell| read_function(&mut sheet, cell.pins.len())).collect::<Result<_, _>>()?;
    sheet.end()?;
    Ok(functions)
}

/// The functions whose fields are wholly there.
pub fn whole_fields(library: &Library, bytes: &[u8]) -> Vec<Function> {
    let mut sheet = Sheet::new(bytes, IN_FUNCTIONS);
    library.cells.iter().map_while(|cell| read_function(&mut sheet, cell.pins.len()).ok()).collect()
}

/// A cell's bits are one field: wherever the sheet ends inside it, it is torn at its first bit.
fn read_function(sheet: &mut Sheet, pins: usize) -> Result<Function, Refusal> {
    let first = sheet.at();
    let mut function = Function::new();
    for _ in 0..settings(pins) {
        let bit = sheet.any(1).or_else(|_| sheet.refuse(TRUNCATED, first))?;
        function.push(bit.value == 1);
    }
    Ok(function)
}

/// The function sheet that states these.
pub fn sheet(functions: &[Function]) -> Vec<u8> {
    let mut writer = Writer::new();
    functions.iter().flatten().for_each(|&value| writer.put(value as u32, 1));
    writer.finish()
}
