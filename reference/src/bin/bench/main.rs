//! Times of the product beside the reference, on the same bytes in one run.
//!
//! `bench`: a table of times and ratios.
//! `bench repeat COUNT WHO ROW`: so many maps of a row (`typical`, `chain`, `comb`, `deep`, `full`,
//! `crosscomb`, `driven`) by `product`, `plain`, `plain_kept`, `merging` or, if it is linked, `before`, or
//! judgements of its cover by `judge`, `judge_reference` or `judge_before`; or so many judgements of a sheet
//! (`longest_library`, `longest_tree`, `longest_plain_tree`) or of a library with its function sheet
//! (`longest_functions`) by `product`, `reference`, `wordwise` or `before`; or so many maps of a part (`part`,
//! `deep_part`) by `product`, `plain`, `plain_kept`, `merging` or `before`, or of its trees one by one by
//! `maps`. It is for a profiler that counts instructions: two counts, and the difference is free of what comes
//! before the first one. It fails where `before` refuses the row, as a product without driven leaves does; the
//! table then leaves it out.

mod clock;
mod cover;
mod functions;
mod judge;
mod map;
mod part;

fn main() {
    let arguments: Vec<String> = std::env::args().skip(1).collect();
    let repeats = [judge::repeat, functions::repeat, cover::repeat, part::repeat, map::repeat];
    if repeats.iter().any(|repeat| repeat(&arguments)) {
        return;
    }
    judge::run();
    functions::run();
    cover::run();
    map::run();
    part::run();
}
