"""The cases of crates/test_refused_memory: the public functions whose allocations they refuse, and the output of each case."""
import re

from source_items import TOP, File, methods, name_in, owner_of, signature

CALLS, COMMANDS = TOP / "crates/test_refused_memory", TOP / "crates/test_refused_commands"
# The crates whose public functions the tests cover.
CALLED_FROM_C = {f"{it}_c": TOP / f"c_interface/tests/test_{it}.c" for it in ("v_frame_png", "v_frame_y4m")}
NO_MEMORY = "calls_that_take_no_memory"
# The cases of each public function with an allocator, by its crate, its module if it has a folder, its type and its name.
CASES_OF_CALLS = {
    "v_frame::Frame::clone": ["clone_of_a_frame"],
    "v_frame::FrameBuilder::build": ["build"],
    "v_frame::Sequence::from_slice": ["list_of_a_slice"],
    "v_frame::laws::bytes_go_through_a_frame": ["bytes_go_through_a_frame"],
    "v_frame::laws::lent_pixels_are_drawn_once": ["lent_pixels_are_drawn_once"],
    "v_frame::laws::lent_rows_are_drawn_once": ["lent_rows_are_drawn_once"],
    "v_frame::built_frame_is_zero": ["built_frame_is_zero"],
    "v_frame::bytes_are_drawn_once": ["bytes_are_drawn_once"],
    "v_frame::pixels_are_drawn_once": ["pixels_are_drawn_once"],
    "v_frame::rows_are_drawn_once": ["rows_are_drawn_once"],
    "v_frame::same_tables_same_answers": ["same_tables_same_answers"],
    "v_frame::replay": ["replay", "replay_of_two_row_writes", "replay_of_reads_and_a_copy"],
    "v_frame_buffer::AlignedData::clone": ["clone_of_a_buffer"],
    "v_frame_buffer::AlignedData::into_values": ["values_of_a_buffer"],
    "v_frame_buffer::AlignedData::new": ["buffer_of_zeros"],
    "v_frame_buffer::AlignedData::without_values": ["buffer_without_values"],
    "v_frame_chart::summaries": ["columns_of_a_chart"],
    "v_frame_chart::svg": ["text_of_a_chart"],
    "v_frame_chart::write_svg": ["write_chart"],
    "v_frame_planar::read_frame": ["read_frame", "read_frame_of_bytes"],
    "v_frame_planar::video_frame": ["video_frame"],
    "v_frame_plane::Plane::new": ["blank_plane"],
    "v_frame_plane::plane::Plane::assume_init": ["assume_init", "assume_init_of_texts", "assume_init_of_counted_drops"],
    "v_frame_plane::plane::Plane::clone": ["clone_of_a_plane"],
    "v_frame_plane::plane::Plane::new_uninit": ["new_uninit"],
    "v_frame_png::PngWriter::new": ["png_writer"],
    "v_frame_png::PngWriter::with_compression": ["png_writer_that_compresses"],
    "v_frame_png::PngWriter::write_plane_u16": ["png_of_a_plane_of_words"],
    "v_frame_png::PngWriter::write_rows_u16": ["png_of_words"],
    "v_frame_png::write_png": ["png_of_rows"],
    "v_frame_png::write_png_with": ["png_of_compressed_rows"],
    "v_frame_semi_planar::read_frame": ["read_semi_planar_frame"],
    "v_frame_statistics::histogram_of_depth": ["histogram_of_a_plane"],
    "v_frame_statistics::rows::histogram_of_depth": ["histogram_of_rows"],
    "v_frame_streams::Picture::new": ["picture_of_a_stream"],
    "v_frame_streams::Sink::write_header": ["header_of_a_sink"],
    "v_frame_streams::Source::raw": ["stream_without_a_header"],
    "v_frame_streams::Source::y4m": ["stream_with_a_header"],
    "v_frame_streams::compare_streams": ["compared_streams"],
    "v_frame_streams::copy_stream": ["copied_stream"],
    "v_frame_streams::crop_frame": ["crop_of_a_frame"],
    "v_frame_tool_run::run": ["run_into_a_fixed_slice"],
    "v_frame_y4m::Ratio::text": ["text_of_a_ratio"],
    "v_frame_y4m::StreamHeader::frame": ["frame_of_a_header"],
    "v_frame_y4m::Text::new": ["text_of_bytes"],
    "v_frame_y4m::header_line": ["header_line"],
    "v_frame_y4m::header_line_with_newline": ["header_line_with_newline"],
    "v_frame_y4m::parse_header": ["parse_header"],
    "v_frame_y4m::parse_lax_header": ["parse_lax_header"],
    "v_frame_y4m::read_frame": ["read_frame_of_a_stream"],
    "v_frame_y4m::read_header": ["read_header", "read_header_that_is_refused"],
    "v_frame_y4m::read_lax_header": ["read_lax_header"],
    "v_frame_y4m::strict_line": ["strict_line"],
    "v_frame_y4m::write_header": ["write_header"],
}


def texts(path):
    """Returns the texts of a file, by the case that each line begins with."""
    found = {}
    pieces = re.split(r"^case (.+)\n", path.read_text(), flags=re.M)
    for case, text in zip(pieces[1::2], pieces[2::2]):
        found.setdefault(case, []).append(text)
    return found


# The arguments and the text of each run of `yuv`.
RUNS_OF_YUV = {case: (words.split(), them[0]) for it, them in texts(COMMANDS / "runs.txt").items() for case, words in [it.split(": ")]}


def cases_of_the_program():
    """Returns the names of the cases, after two numbers, as the arguments of the program in `rt ci`."""
    return (CALLS / "args").read_text().split()[2:]


def takes_memory(told):
    """Returns whether a signature has an allocator as a parameter."""
    return re.search(r"\balloc: (?:Global|&?A)\b", re.split(r"\n\s+(?:ensures|requires|where)", "\n".join(told))[0])


def calls_in(path):
    """Returns the public functions of a file that allocate."""
    crate, _, *folders = path.relative_to(TOP / "crates").parts[:-1]
    at = "::".join([crate, *folders])
    for _, item, head in File(path).heads():
        if head["kind"] == "fn" and head["pub"] and takes_memory(signature(item, 0)):
            yield f"{at}::{name_in(head)}"
        elif head["kind"] == "impl":
            yield from (f"{at}::{owner_of(item)[1]}::{name}" for name, _, told in methods(item) if takes_memory(told))


def faults():
    """Returns the faults of the list: a public function that allocates and has no case, or a row of another function."""
    sources = [it for it in sorted(TOP.glob("crates/v_frame*/src/**/*.rt")) if "tests" not in it.parts]
    calls = [call for it in sources for call in calls_in(it)]
    from_c = [it.split("::") for it in calls if re.match(r"\w+_c::v_frame_", it)]
    calls = [it for it in calls if it.split("::")[0] not in CALLED_FROM_C]
    cases, named = cases_of_the_program(), [case for them in CASES_OF_CALLS.values() for case in them]
    return [
        *(f"{it} allocates and has no case" for it in calls if it not in CASES_OF_CALLS),
        *(f"{it} is not a public function that allocates" for it in CASES_OF_CALLS if it not in calls),
        *(f"{it} occurs more than once" for it in sorted(set(calls)) if calls.count(it) > 1),
        *(f"{CALLED_FROM_C[crate].name} doesn't call {it}" for crate, it in from_c if f"{it}(" not in CALLED_FROM_C[crate].read_text()),
        *(f"the program has no case {it}" for it in named if it not in cases),
        *(f"the case {it} belongs to no function" for it in cases if it not in named and it != NO_MEMORY),
    ]
