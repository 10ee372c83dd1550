//! Tests the error messages: each row of the table is the message of a value of its variant. tools/check-error-texts tests that
//! every variant has a row.

use crate::generated::yuv_files::{FileKind, SystemError, TargetError};
use crate::generated::yuv_pictures::PictureError;
use crate::generated::yuv_system::{Fault, NothingTaken};
use crate::generated::yuv_words::{CommandName, OptionName, UsageError};
use std::fmt::Display;
use std::io::{self, ErrorKind};
use v_frame_proved::planar::PlanarError;
use v_frame_proved::png::PngError;
use v_frame_proved::streams::{Place, Problem, StreamError};
use v_frame_proved::y4m::{HeaderError, Y4mError};

const TABLE: &str = include_str!("../../../v_frame_proved/tests/data/error_texts.txt");

/// Compares the rows of an error with its values, by the names of their variants, in the order of the table.
fn compare<E: Display>(error: &str, values: &[(&str, E)]) {
    let rows: Vec<&str> = TABLE.lines().filter(|row| row.starts_with(&format!("{error}::"))).collect();
    let shown = values.iter().map(|(variant, value)| format!("{error}::{variant} | {value}"));
    assert_eq!(shown.collect::<Vec<_>>(), rows);
}

/// Returns an error of the first stream after two frames.
fn after_two(problem: Problem, cause: Option<ErrorKind>) -> StreamError {
    StreamError { place: Place::First, frames: 2, problem, cause }
}

/// Returns the message of a read that the system did not permit.
fn forbidden() -> StreamError {
    after_two(Problem::Stream(Y4mError::Planar(PlanarError::Read)), Some(ErrorKind::PermissionDenied))
}

#[test]
fn problems_of_streams() {
    compare(
        "v_frame_streams Problem",
        &[
            ("Stream", Problem::Stream(Y4mError::NoFrame)),
            ("TooLarge", Problem::TooLarge),
            ("TooManyPixels", Problem::TooManyPixels(33_177_600)),
            ("EmptyCrop", Problem::EmptyCrop),
            ("CropOutside", Problem::CropOutside),
            ("CropMisaligned", Problem::CropMisaligned { columns: 4, rows: 1 }),
            ("OtherSize", Problem::OtherSize),
            ("OtherChroma", Problem::OtherChroma),
            ("OtherDepth", Problem::OtherDepth),
            ("SemiPlanar", Problem::SemiPlanar),
            ("OtherLayout", Problem::OtherLayout),
            ("Unwritable", Problem::Unwritable),
            ("OutOfMemory", Problem::OutOfMemory),
        ],
    );
    let first = StreamError { place: Place::Output, frames: 0, problem: Problem::EmptyCrop, cause: None };
    let shown = [forbidden(), first].map(|error| format!("v_frame_streams StreamError | {error}"));
    let rows = TABLE.lines().filter(|row| row.starts_with("v_frame_streams StreamError "));
    assert_eq!(rows.collect::<Vec<_>>(), shown);
}

/// The words are those of `strerror` of the C library, in English, as `perl -e 'print $!'` prints them.
#[test]
fn errors_of_the_system() {
    let kinds = [
        ErrorKind::NotFound,
        ErrorKind::PermissionDenied,
        ErrorKind::BrokenPipe,
        ErrorKind::AlreadyExists,
        ErrorKind::NotADirectory,
        ErrorKind::IsADirectory,
        ErrorKind::ReadOnlyFilesystem,
        ErrorKind::StaleNetworkFileHandle,
        ErrorKind::InvalidInput,
        ErrorKind::StorageFull,
        ErrorKind::NotSeekable,
        ErrorKind::QuotaExceeded,
        ErrorKind::FileTooLarge,
        ErrorKind::ResourceBusy,
        ErrorKind::ExecutableFileBusy,
        ErrorKind::CrossesDevices,
        ErrorKind::Interrupted,
        ErrorKind::OutOfMemory,
        ErrorKind::TimedOut,
    ];
    let shown = kinds.map(|kind| format!("yuv_files SystemError | {}", SystemError { kind }));
    let rows: Vec<&str> = TABLE.lines().filter(|row| row.starts_with("yuv_files SystemError ")).collect();
    assert_eq!(shown.as_slice(), rows);
}

#[test]
fn errors_of_pictures() {
    compare(
        "yuv_pictures PictureError",
        &[
            ("TooLarge", PictureError::TooLarge { width: 1 << 31, height: 1 }),
            ("NoPlane", PictureError::NoPlane),
            ("Layout", PictureError::Layout),
            ("Unlike", PictureError::Unlike),
            ("Png", PictureError::Png(PngError::WriteZero)),
            ("OutOfMemory", PictureError::OutOfMemory),
        ],
    );
}

#[test]
fn faults_of_commands() {
    let missing = || after_two(Problem::Stream(Y4mError::Header(HeaderError::Missing('W'))), None);
    let unwritten = StreamError {
        place: Place::Output,
        frames: 0,
        problem: Problem::Stream(Y4mError::Planar(PlanarError::WriteZero)),
        cause: None,
    };
    let nothing = |skip, count| NothingTaken { frames: 3, skip, count };
    let full = PictureError::Png(PngError::Write(io::Error::from(ErrorKind::StorageFull)));
    compare(
        "yuv_system Fault",
        &[
            ("Open", Fault::Open(Place::First, ErrorKind::NotFound)),
            ("InputTwice", Fault::InputTwice(Place::Second)),
            ("ReadAndWritten", Fault::ReadAndWritten(Place::First)),
            ("NotAStream", Fault::NotAStream(Place::First)),
            ("NoBytes", Fault::NoBytes(Place::First)),
            ("NoPlanes", Fault::NoPlanes(Place::First)),
            ("Header", Fault::Header(missing())),
            ("Stream", Fault::Stream(forbidden())),
            ("Stream", Fault::Stream(after_two(Problem::TooManyPixels(33_177_600), None))),
            ("Stream", Fault::Stream(after_two(Problem::SemiPlanar, None))),
            ("Stream", Fault::Stream(after_two(Problem::OtherDepth, None))),
            ("Report", Fault::Report(unwritten)),
            ("Create", Fault::Create(ErrorKind::PermissionDenied)),
            ("Replace", Fault::Replace(ErrorKind::PermissionDenied)),
            ("Rewrite", Fault::Rewrite(ErrorKind::StorageFull)),
            ("Target", Fault::Target(FileKind::Png, TargetError::Input)),
            ("Target", Fault::Target(FileKind::Svg, TargetError::Stream)),
            ("Target", Fault::Target(FileKind::Y4m, TargetError::OtherKind(FileKind::Raw))),
            ("Target", Fault::Target(FileKind::Raw, TargetError::OtherKind(FileKind::Y4m))),
            ("Target", Fault::Target(FileKind::Y4m, TargetError::OtherKind(FileKind::Container))),
            ("Target", Fault::Target(FileKind::Y4m, TargetError::OtherKind(FileKind::Png))),
            ("Target", Fault::Target(FileKind::Png, TargetError::OtherKind(FileKind::OtherPicture))),
            ("Target", Fault::Target(FileKind::Svg, TargetError::OtherKind(FileKind::Png))),
            ("Picture", Fault::Picture(full)),
            ("Picture", Fault::Picture(PictureError::NoPlane)),
            ("Nothing", Fault::Nothing(Place::First, nothing(9, None))),
            ("Nothing", Fault::Nothing(Place::First, nothing(0, Some(0)))),
            ("NoFrame", Fault::NoFrame(Place::First, 2)),
            ("NoFrame", Fault::NoFrame(Place::First, 1)),
            ("FrameZero", Fault::FrameZero),
            ("SwapsFields", Fault::SwapsFields { place: Place::First, from: 2, nearest: 4 }),
            ("NoWindow", Fault::NoWindow(Place::First)),
        ],
    );
}

#[test]
fn errors_of_words() {
    let (skip, ssim, half) = (OptionName::Skip, OptionName::Ssim, OptionName::Half);
    let (raw, plane) = (OptionName::Raw, OptionName::Plane);
    compare(
        "yuv_words UsageError",
        &[
            ("NoCommand", UsageError::NoCommand),
            ("UnknownCommand", UsageError::UnknownCommand("sho")),
            ("ExtraWord", UsageError::ExtraWord("more")),
            ("UnknownOption", UsageError::UnknownOption("--sim")),
            ("NotOfCommand", UsageError::NotOfCommand { option: ssim, command: CommandName::Info }),
            ("Repeated", UsageError::Repeated(skip)),
            ("MissingValue", UsageError::MissingValue(raw)),
            ("MissingValue", UsageError::MissingValue(OptionName::Count)),
            ("MissingValue", UsageError::MissingValue(OptionName::Gain)),
            ("MissingValue", UsageError::MissingValue(OptionName::Crop)),
            ("MissingValue", UsageError::MissingValue(OptionName::Format)),
            ("MissingValue", UsageError::MissingValue(OptionName::Rate)),
            ("MissingValue", UsageError::MissingValue(OptionName::Aspect)),
            ("MissingValue", UsageError::MissingValue(OptionName::Matrix)),
            ("MissingValue", UsageError::MissingValue(OptionName::Range)),
            ("MissingValue", UsageError::MissingValue(plane)),
            ("NeedlessValue", UsageError::NeedlessValue { option: half, value: "2" }),
            ("NotAValue", UsageError::NotAValue { option: plane, word: "w" }),
            ("NotAValue", UsageError::NotAValue { option: raw, word: "640X360" }),
            ("NotAValue", UsageError::NotAValue { option: raw, word: "0x48:420" }),
            ("NotAValue", UsageError::NotAValue { option: raw, word: "64x48" }),
            ("NotAValue", UsageError::NotAValue { option: OptionName::RawSecond, word: "64x48:421" }),
            ("NotAValue", UsageError::NotAValue { option: raw, word: "64x48:420@1:0" }),
            ("TwoForms", UsageError::TwoForms),
            ("MissingFile", UsageError::MissingFile),
            ("ExtraFile", UsageError::ExtraFile("c.y4m")),
            ("NotUnicode", UsageError::NotUnicode),
        ],
    );
}
