//! Tests of the interface to the system that the recorded runs do not cover.

use super::cases::Room;
use crate::support::HostRuntime;
use crate::support::fs::{self, OpenFile, OpenOptions, TryLockError, WithoutLocks};
use crate::support::path::PathBuf;
use crate::support::time::Instant;
use std::io::{ErrorKind, Write};
use std::os::unix::fs::{PermissionsExt, symlink};
use std::thread::sleep;
use std::time::Duration;
use v_frame_proved::support::memory::TryPush;

#[test]
fn files_are_opened_as_it_is_asked() {
    let (room, rt) = (Room::new("opened"), HostRuntime::new().expect("standard streams"));
    let name = room.folder().join("new").into_os_string().into_string().expect("UTF-8");
    let mut options = OpenOptions::new();
    options.write(true).create_new(true).mode(0o600);
    let mut file = options.open(&rt, &name).expect("a new file");
    assert_eq!(file.metadata().expect("a file").permissions().mode() & 0o777, 0o600);
    assert_eq!(options.open(&rt, &name).err().map(|error| error.kind()), Some(ErrorKind::AlreadyExists));
    file.write_all(b"first").expect("a write");
    let mut options = OpenOptions::new();
    options.append(true);
    options.open(&rt, &name).expect("the file").write_all(b" last").expect("a write");
    assert_eq!(std::fs::read(&name).expect("the file"), b"first last");
    OpenFile::set_len(&file, 3).expect("a cut");
    assert_eq!(std::fs::read(&name).expect("the file"), b"fir");
    OpenFile::set_permissions(&file, PermissionsExt::from_mode(0o640)).expect("a mode");
    assert_eq!(fs::metadata(&rt, &name).expect("a file").permissions().mode() & 0o777, 0o640);
}

#[test]
fn links_are_followed_where_it_is_asked() {
    let (room, rt) = (Room::new("links"), HostRuntime::new().expect("standard streams"));
    let folder = room.folder().canonicalize().expect("a folder");
    let name = |name: &str| folder.join(name).into_os_string().into_string().expect("UTF-8");
    symlink("mono_7x5.y4m", name("link")).expect("a link");
    symlink("round", name("round")).expect("a link");
    assert!(fs::symlink_metadata(&rt, &name("link")).expect("a link").is_symlink());
    assert!(fs::metadata(&rt, &name("link")).expect("a file").is_file());
    assert_eq!(fs::read_link(&rt, name("link")).expect("a link").as_str(), "mono_7x5.y4m");
    assert_eq!(fs::canonicalize(&rt, &name("link")).expect("a file").as_str(), name("mono_7x5.y4m"));
    let refused = fs::open(&rt, &name("round")).expect_err("a link to itself");
    assert_eq!(fs::too_many_links().raw_os_error(), refused.raw_os_error());
}

/// Fails with a Rust version before 1.89, whose `std` cannot lock files.
#[test]
fn a_file_is_locked_once_until_it_is_closed() {
    let (room, rt) = (Room::new("locks"), HostRuntime::new().expect("standard streams"));
    let name = room.folder().join("locked").into_os_string().into_string().expect("UTF-8");
    let first = fs::create(&rt, &name).expect("a new file");
    let second = fs::open(&rt, &name).expect("the file");
    assert!(fs::try_lock(&first).is_ok());
    assert!(matches!(fs::try_lock(&second), Err(TryLockError::WouldBlock)));
    drop(first);
    assert!(fs::try_lock(&second).is_ok());
}

/// A type without a method `try_lock`, as `File` is before Rust 1.89.
#[test]
fn without_locks_the_kind_of_the_error_is_unsupported() {
    let locked = ().try_lock();
    assert_eq!(locked.map_err(|error| error.kind()), Err(ErrorKind::Unsupported));
}

#[test]
fn names_have_parts() {
    let part = |text| PathBuf::from_str(text).expect("memory");
    let mut path = part("a/b");
    assert!(path.pop());
    path.try_push(&part("c/d")).expect("memory");
    assert_eq!(path.as_str(), "a/c/d");
    path.try_push(&part("/e")).expect("memory");
    assert_eq!(path.as_str(), "/e");
    assert!(path.pop() && !path.pop());
    assert_eq!(path.into_string(), "/");
}

#[test]
fn the_clock_goes_on() {
    let rt = HostRuntime::new().expect("standard streams");
    let begin = Instant::now(&rt).expect("a clock");
    sleep(Duration::from_millis(5));
    assert!(begin.elapsed(&rt).expect("a clock") >= Duration::from_millis(5));
}
