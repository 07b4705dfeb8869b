//! Bins, cells and pins.

use super::super::parts::counted_comb;
use super::{drawn, inverter, last, nand, with_cells, Table};
use crate::form::{Form, Role};
use crate::library::Library;

pub fn add(table: &mut Table) {
    bins(table);
    cells(table);
    values(table);
    pins(table);
    pin_bins(table);
}

fn bins(table: &mut Table) {
    let with_bins = |bins: &[u32]| Form::of_library(&Library { bins: bins.to_vec(), cells: vec![inverter()] });
    for bins in [&[1][..], &[255], &[1, 2, 3, 4], &[252, 253, 254, 255], &[1, 255], &[7, 8, 200]] {
        table.library("bins", &with_bins(bins), 1, 1);
    }
    for count in [0, 5, 6, 7] {
        table.value_refused("bin count", &with_bins(&[1, 2, 3, 4]), 0, count, 4);
    }
    table.refused_at("five bins", &with_bins(&[1, 2, 3, 4, 5]), 0, 4);
    table.refused_at("load 0", &with_bins(&[0]), 1, 4);
    table.refused_at("load 0 of two", &with_bins(&[0, 1]), 1, 4);
    table.refused_at("equal loads", &with_bins(&[5, 5]), 2, 4);
    table.refused_at("falling loads", &with_bins(&[5, 4]), 2, 4);
    table.refused_at("falling to 0", &with_bins(&[255, 0]), 2, 4);
    table.refused_at("equal highest loads", &with_bins(&[1, 255, 255]), 3, 4);
    table.refused_at("last load falls", &with_bins(&[1, 2, 3, 1]), 4, 4);
    table.refused_at("last load equal", &with_bins(&[1, 2, 3, 3]), 4, 4);
}

fn cells(table: &mut Table) {
    let alike = |count: usize| with_cells(vec![inverter(); count]);
    table.library("63 cells", &alike(63), 63, 63);
    table.library("64 cells", &alike(64), 64, 64);
    for count in [0, 65, 127] {
        let form = alike(count);
        table.refused_at("cell count", &form, last(&form, Role::CellCount), 4);
    }
    let count = last(&alike(2), Role::CellCount);
    let after = |form: &Form| form.place(form.fields.len());
    table.refused("a cell counted and not there", alike(2).with(count, 3).bytes(), 2, after(&alike(2)) + 1);
    table.refused("a cell there and not counted", alike(2).with(count, 1).bytes(), 3, after(&alike(1)));
}

fn values(table: &mut Table) {
    let form = with_cells(vec![inverter()]);
    let cell = [(Role::Hold, 1), (Role::Area, 65_535), (Role::HighestLoad, 0), (Role::HighestLoad, 255)];
    let pin = [(Role::Intrinsic, 0), (Role::Intrinsic, 65_535), (Role::Drive, 0), (Role::Drive, 255)];
    for (role, value) in cell.into_iter().chain(pin) {
        table.library("value in range", &form.with(last(&form, role), value), 1, 1);
    }
    table.value_refused("area 0", &form, last(&form, Role::Area), 0, 4);
}

fn pins(table: &mut Table) {
    for count in 2..=6 {
        table.library("pins", &drawn(count, &counted_comb(count as u32)), 1, 1);
    }
    let form = drawn(2, &counted_comb(2));
    table.value_refused("no pins", &form, last(&form, Role::PinCount), 0, 4);
    table.value_refused("seven pins", &form, last(&form, Role::PinCount), 7, 4);
    let seven = drawn(7, &counted_comb(7));
    table.refused_at("seven pins drawn", &seven, last(&seven, Role::PinCount), 4);
}

fn pin_bins(table: &mut Table) {
    for bin_count in 1..=4u32 {
        let form = Form::of_library(&Library { bins: (1..=bin_count).collect(), cells: vec![nand()] });
        let field = last(&form, Role::PinBin);
        for bin in 0..4 {
            if bin < bin_count {
                table.library("bin number", &form.with(field, bin), 1, 1);
            } else {
                table.value_refused("bin number", &form, field, bin, 4);
            }
        }
    }
}
