//! What stands in the file beside the cases: what it is, the definitions that it
//! computes through, and a few words of its own.

use crate::entry::Entry;
use crate::facts::SEED;

/// A fact's name, what it is about, and the definitions that it computes through.
pub struct Fact {
    pub name: &'static str,
    pub about: &'static str,
    pub unfolding: String,
}

/// The file up to its first fact, which has so many cases together with the others.
pub fn of(count: usize) -> String {
    format!(
        "\
-- {count} cases of mixed damage: several faults in a descriptor, faults in several inputs at once. Each is computed from the definitions, so that a
-- number, an input, a place, an order or an output that is changed in a definition and in the code alike is noticed here. Nobody edits this file:
-- `cargo run --release --package differential -- --facts` in `host/` prints it, by seed {SEED} of the differential test's generator, and the
-- answers are the second implementation's. Cases are chosen by what they are the first to meet: every number of each question but 1, 7 and 20,
-- which long inputs earn (`Refusals.antt`, `DataCases.antt`, `OrderCases.antt`), at several places; and one refusal before another. Behind `over`
-- stand refusals that a case would earn with fewer of its faults, by number, input and place.
-- The public entries whose contracts use these definitions are those of the questions about descriptors, data and records.
{USES}{WORDS}"
    )
}

const USES: &str = "\
use Rattle.std.specs.Prelude.{◌≡◌, refl, true, false, List, [], ◌∷◌, ℕ}
use Rattle.std.specs.Float.Ieee.{nan_bits, of_bits, to_bits}
use Rattle.number.specs.Endian.{be, be_bytes, le}
use Rattle.number.specs.Signed.{signed}
use Rattle.number.specs.Float.{single_of, double_of}
use Rattle.descriptor.specs.Codes.{kind_of}
use Rattle.descriptor.specs.Tree.{child_count, count_of, items_size, fields_size, name_size, tree_size, forest_size, row_count, forest_rows}
use Rattle.descriptor.specs.Stamp.{is_unnamed, are_unnamed, is_stamp_cluster, is_stamp_inside}
use Rattle.descriptor.specs.Encoding.{packed, pair_bytes, field_bytes, name_bytes, encode_with, forest_with}
use Rattle.descriptor.specs.Check.{header_at, count_at, run_at, item_at, items_at, pairs_at, fields_read, judged, contents_at, fill_at, filled_at, fields_at, members_at, name_at, node_at, tree_at, checked}
use Rattle.descriptor.specs.Table.{place_of_name, length_of_name, row_of, rows_of, forest_rows_of}
use Rattle.descriptor.specs.Answers.{refusal, accepted, no_rows, descriptor_check}
use Rattle.descriptor.specs.Output.{unwritten, written_to}
use Rattle.descriptor.specs.Width.{width_of}
use Rattle.descriptor.specs.declared.answer.Answer.{Answer}
use Rattle.canonical.specs.Equality.{same_list, same_name, items_of, pairs_of, same_tree, same_forest, not_compared, both_compared, comparison}
use Rattle.canonical.specs.Normal.{normal_form}
use Rattle.flattened.specs.Order.{number_at}
use Rattle.flattened.specs.Walk.{scalar_at, text_at, sizes_at, sizes_fit, product, array_at, repeat, walk_fields, walk, walk_all, walked}
use Rattle.flattened.specs.Answers.{data_check}
use Rattle.byte_order.specs.Reversal.{reverse_each, number_count, number_width, reverse_token, reversed, turned, to_little_endian, from_little_endian}
use Rattle.access.specs.Path.{member_at, step_at, spot_at, no_part, part_of, located}
use Rattle.access.specs.declared.part.Part.{Part}
use Rattle.reading.specs.Values.{of_single, of_double, value_of, is_value, number_of, read_value, value_kind, complement, value_bits}
use Rattle.reading.specs.declared.value.Reading.{Reading}
use Rattle.resolution.specs.Record.{members_from, writer_fields, is_among, reader_names, reader_fields, matches, namesakes, searched, search_number, member_found, member_bytes, joined_bytes, record_bytes, resolved}
use Rattle.demands.specs.Cases.{row, with_rows, room}
use Rattle.demands.specs.DataCases.{wrote}
";

const WORDS: &str = "
-- n bytes, written as one number
abbrev hex : ℕ → ℕ → List ℕ
hex n bytes = be_bytes n bytes

-- an accepted part
abbrev part_at : ℕ → ℕ → Part
part_at start length = record { answer = accepted 0; start = start; length = length }

-- a value as C gets it: the answer, the value's kind and its bits
unfoldable pub told : Reading → Answer × ℕ × ℕ
told x = (x.answer, value_kind x.value, value_bits x.value)
";

/// What a descriptor's check computes through.
const CHECK: &str = "be be_bytes kind_of child_count count_of items_size fields_size name_size tree_size forest_size row_count forest_rows is_unnamed are_unnamed is_stamp_cluster is_stamp_inside header_at count_at run_at item_at items_at pairs_at fields_read judged contents_at fill_at filled_at fields_at members_at name_at node_at tree_at checked";
/// What a walk of data does, beside that.
const WALK: &str = "le width_of number_at scalar_at text_at sizes_at sizes_fit product array_at repeat walk_fields walk walk_all walked";
const EQUALITY: &str = "same_list same_name items_of pairs_of same_tree same_forest";
const TURNING: &str =
    "written_to reverse_each number_count number_width reverse_token reversed turned";

pub fn fact(entry: Entry) -> Fact {
    let [name, about] = words(entry);
    let own = match entry {
        Entry::CheckDescriptor => {
            "place_of_name length_of_name row_of rows_of forest_rows_of descriptor_check"
        }
        Entry::Compare => "comparison",
        Entry::NormalForm => {
            "written_to packed pair_bytes field_bytes name_bytes encode_with forest_with normal_form"
        }
        Entry::CheckData => "data_check",
        Entry::View => "member_at step_at spot_at part_of located",
        Entry::ReadValue => {
            "member_at step_at spot_at signed single_of double_of nan_bits of_bits to_bits of_single of_double value_of is_value number_of read_value value_kind complement value_bits told"
        }
        Entry::ToLittleEndian | Entry::FromLittleEndian => TURNING,
        _ => {
            "row_of place_of_name length_of_name written_to members_from writer_fields is_among reader_names reader_fields matches namesakes searched search_number member_found member_bytes joined_bytes record_bytes resolved"
        }
    };
    let walk = entry.reads_data().then_some(WALK);
    let equality = entry.reads_two().then_some(EQUALITY);
    let lists = [Some(CHECK), walk, equality, Some(own)];
    Fact {
        name,
        about,
        unfolding: lists.into_iter().flatten().collect::<Vec<_>>().join(" "),
    }
}

fn words(entry: Entry) -> [&'static str; 2] {
    match entry {
        Entry::CheckDescriptor => [
            "damaged-descriptors",
            "checks of a descriptor, with the rows of those that are accepted",
        ],
        Entry::Compare => ["damaged-twins", "comparisons of two descriptors"],
        Entry::NormalForm => ["damaged-forms", "normal forms, with the room as it is left"],
        Entry::CheckData => ["damaged-data", "checks of data"],
        Entry::View => ["damaged-parts", "parts at a path"],
        Entry::ReadValue => ["damaged-values", "values at a path"],
        Entry::ToLittleEndian => ["damaged-turned", "data turned into its little-endian form"],
        Entry::FromLittleEndian => ["damaged-returned", "and back from it"],
        _ => [
            "damaged-records",
            "records in a reader's shape: writer, reader, data, room",
        ],
    }
}
