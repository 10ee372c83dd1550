//! Streams allocate memory when they begin, but not for each frame that is read, changed, written or compared.
#![cfg(feature = "std")]

use std::alloc::{GlobalAlloc, Layout, System};
use std::cell::Cell;
use std::io::{self, Read};
use v_frame_proved::formats::{Rectangle, VideoFormat};
use v_frame_proved::streams::{CompareOptions, Container, CopyOptions, MAX_PIXELS, NoObserver, Place, Silent, Sink, Source};
use v_frame_proved::streams::{compare_streams, copy_stream};
use v_frame_proved::y4m::StreamHeader;

thread_local! {
    /// The number of allocations of this thread.
    static REQUESTS: Cell<u64> = const { Cell::new(0) };
}

/// The allocator of the system, which counts its calls.
struct Counting;

#[global_allocator]
static COUNTING: Counting = Counting;

// SAFETY: each call is forwarded unchanged.
unsafe impl GlobalAlloc for Counting {
    unsafe fn alloc(&self, layout: Layout) -> *mut u8 {
        let _ = REQUESTS.try_with(|requests| requests.set(requests.get() + 1));
        unsafe { System.alloc(layout) }
    }

    unsafe fn dealloc(&self, place: *mut u8, layout: Layout) {
        unsafe { System.dealloc(place, layout) }
    }
}

/// Returns the number of allocations that a call makes.
fn requests(call: impl FnOnce()) -> u64 {
    let before = REQUESTS.get();
    call();
    REQUESTS.get() - before
}

/// Returns raw video of `frames` frames in this format.
fn source(format: &str, frames: u64) -> Source<io::Take<io::Repeat>> {
    let format = VideoFormat::named(format).expect("a format");
    let layout = match format {
        VideoFormat::SemiPlanar(layout) => Some(layout),
        VideoFormat::Planar(_) => None,
    };
    let header = StreamHeader::new(24, 10, format.color());
    let count = header.frame_len().expect("a length") as u64 * frames;
    Source::raw(Place::First, header, layout, io::repeat(3).take(count)).expect("a source")
}

const FORMATS: [&str; 12] =
    ["420", "422", "444p12", "mono", "mono16", "nv12", "nv21", "nv16", "nv24", "p010le", "p012le", "p016le"];

/// Returns the number of allocations of a copy of `frames` frames.
fn requests_of_copy(format: &str, container: Container, options: &CopyOptions, frames: u64) -> u64 {
    let mut source = source(format, frames);
    let mut sink = Sink::new(container, io::sink());
    requests(|| assert_eq!(copy_stream(&mut source, &mut sink, options, &mut Silent).expect("a copy"), frames))
}

#[test]
fn copies_take_no_memory_for_a_frame() {
    let crop = Some(Rectangle { x: 8, y: 4, width: 9, height: 5 });
    let all = CopyOptions::new;
    let mut options = vec![all(), CopyOptions { half: true, ..all() }, CopyOptions { crop, half: true, ..all() }];
    options.extend(FORMATS.map(|name| CopyOptions { format: VideoFormat::named(name), ..all() }));
    for format in FORMATS {
        for container in [Container::Y4m, Container::Raw] {
            for options in &options {
                if container == Container::Y4m && options.layout().is_some() {
                    continue;
                }
                let of_one = requests_of_copy(format, container, options, 1);
                assert_eq!(requests_of_copy(format, container, options, 6), of_one, "{format} {container:?} {options:?}");
            }
        }
    }
}

/// Returns the number of allocations of a comparison of `frames` frames in two formats.
fn requests_of_comparison(first: &str, second: &str, frames: u64) -> u64 {
    let all = CompareOptions { skip_first: 0, skip_second: 0, count: None, max_pixels: MAX_PIXELS };
    let (mut first, mut second) = (source(first, frames), source(second, frames));
    requests(|| {
        let found = compare_streams(&mut first, &mut second, &all, &mut NoObserver, &mut Silent).expect("a comparison");
        assert_eq!(found.frames, frames);
    })
}

#[test]
fn comparisons_take_no_memory_for_a_frame() {
    for (first, second) in [("420", "nv12"), ("nv21", "nv12"), ("mono16", "mono16"), ("420p10", "p010le")] {
        assert_eq!(requests_of_comparison(first, second, 6), requests_of_comparison(first, second, 1), "{first} {second}");
    }
}
