// Deliberate errors, one at a time, for the test of the comparison itself.
//
// The environment variable SECOND_SLIP names one of them, and second/slips tries them all: the
// comparison must report a difference for each. Without the variable nothing here has any effect.
use std::sync::atomic::{AtomicUsize, Ordering};

macro_rules! slips {
    ($($id:ident = $name:literal, $what:literal;)*) => {
        #[allow(non_camel_case_types)]
        #[derive(Clone, Copy)]
        pub enum Slip { $($id),* }
        pub const NAMES: &[(&str, &str)] = &[$(($name, $what)),*];
    };
}

slips! {
    b_below_d_only = "b-below-d-only", "the least form of a hexahedron compares b with d alone";
    by_tetrahedra = "by-tetrahedra", "two cells on the same tetrahedra are taken for one";
    boundary_in = "boundary-in", "boundary tetrahedra are counted in";
    more_to_come = "more-to-come", "the end is not told when the room ends at the last cell";
    parts_mixed = "parts-mixed", "the part numbers are not compared";
    flat_corner = "flat-corner", "a corner box of zero is taken for sound";
    corner_g_free = "corner-g-free", "corner g of a hexahedron is not tested";
    apex_turned = "apex-turned", "the corners of a pyramid are tested for the mirror image";
    inside_free = "inside-free", "triples inside a cell may be facets of one tetrahedron";
    facet_three = "facet-three", "three tetrahedra on a facet are let pass";
    one_side = "one-side", "two tetrahedra on one side of a facet are let pass";
    twice_before_range = "twice-before-range", "a vertex named twice is reported before one out of range";
    flat_tetrahedron = "flat-tetrahedron", "a tetrahedron of box zero is let pass";
    bound_below = "bound-below", "a coordinate of 50,000 is refused";
    count_before_total = "count-before-total", "counts are tested before the header's total";
    offset_free = "offset-free", "the offset of the tetrahedra is not tested";
    letter_order = "letter-order", "hexahedra are sorted in letter order";
    mark_whole = "mark-whole", "numbers of a mark beyond the kind's corners count";
    mark_again = "mark-again", "the cell of the mark itself is handed out again";
    mark_letters = "mark-letters", "the unused places of a mark are 65,535";
    unused_zero = "unused-zero", "the unused corners of a record are zero";
    table_short = "table-short", "a table that is one entry short is taken";
    table_touched = "table-touched", "an entry after the table is written";
    room_36 = "room-36", "a room of 35 entries is refused";
    least_unused = "least-unused", "unused places of a least form are handed back as they came";
    least_twice = "least-twice", "equal corners in use are let pass";
    box_bound = "box-bound", "a box on points out of bounds is answered";
    part_high_first = "part-high-first", "the bytes of a part are written highest first";
    part_missing = "part-missing", "a part too few is let pass and written as 0";
    many_before_long = "many-before-long", "too many vertices or tetrahedra are told before a file that is too long";
    room_exact = "room-exact", "a room of exactly the file's length is refused";
    room_first = "room-first", "a short room is told before the refusals of the file";
    written_on_refusal = "written-on-refusal", "the length is told with a refusal too";
    past_cleared = "past-cleared", "the byte behind the file is cleared";
    comment_in_word = "comment-in-word", "a comment begins between words alone";
    no_number_first = "no-number-first", "a word too many that is no number is told as no number";
    later_edge = "later-edge", "of a tuple's edges that are none of the mesh the last is named";
    squares_first = "squares-first", "quadrilaterals are counted before triangles";
    place_from_one = "place-from-one", "the place of a corner is counted from 1";
    equal_corner = "equal-corner", "a corner that equals an earlier one is overlooked";
    unused_corner = "unused-corner", "places beyond a kind's corners must be vertices too";
    zero_box = "zero-box", "a corner triple whose box is zero is passed over";
    on_square_in = "on-square-in", "a tuple's tetrahedra have those on one quadrilateral among them";
    triple_first = "triple-first", "an offending triple is told before an offending face";
    first_triple = "first-triple", "the offending triple that is first by its letters is told";
    faces_passed = "faces-passed", "a triple on a quadrilateral's other diagonal is passed over";
    triple_as_it_is = "triple-as-it-is", "the vertices of a triple stand in the order of its letters";
    box_before_face = "box-before-face", "condition 4 is told before condition 3";
    parts_before_facets = "parts-before-facets", "condition 6 is told before condition 5";
    left_unturned = "left-unturned", "a cell's tuple is told as it was asked for";
    kind_before_nine = "kind-before-nine", "another kind is told before refusal 9";
    answer_cleared = "answer-cleared", "a refusal clears the answer";
}

static NOW: AtomicUsize = AtomicUsize::new(usize::MAX);

// Reads SECOND_SLIP once, at the start of a program.
pub fn choose() {
    if let Ok(name) = std::env::var("SECOND_SLIP") {
        match NAMES.iter().position(|s| s.0 == name) {
            Some(i) => NOW.store(i, Ordering::Relaxed),
            None => {
                eprintln!("SECOND_SLIP names no slip: {}", name);
                std::process::exit(2);
            }
        }
    }
}

pub fn is(slip: Slip) -> bool {
    NOW.load(Ordering::Relaxed) == slip as usize
}
