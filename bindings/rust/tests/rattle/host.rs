//! Files, standard streams, arguments and errors as the program's stand-in has them, each call by itself. The tests run in a
//! process of their own, one after the other: a call that doesn't ask for the memory that `std` requests next ends it.

use crate::heap::{asked_by, held, with};
use crate::host::streams::prepare;
use crate::rattle::fs::{self, OpenFile, OpenOptions};
use crate::rattle::io::{self, Error, ErrorKind, Read, Write};
use crate::rattle::prelude::{Eprint, HostRuntime, Input, Print};
use crate::rattle::process::{self, ExitCode, Termination};
use crate::rattle::{env, fmt};
use std::cell::RefCell;
use std::ffi::OsString;
use std::fs::Permissions;
use std::os::unix::fs::{symlink, MetadataExt, PermissionsExt};
use std::path::{Path, PathBuf};
use std::process::{Command, Stdio};

const TYPED: &[u8] = b"typed";
const OUTPUT: &[u8] = b"these bytes are on standard output\n";

#[test]
fn each_call_of_the_host_holds_by_itself() {
    let mut command = Command::new(std::env::current_exe().unwrap());
    // (no test has the last name, which is longer than what is read at once of the arguments)
    command.args(["host_calls::", "--ignored", "--test-threads=1", "--skip"]);
    command.arg("x".repeat(9000));
    command.stdin(Stdio::piped()).stdout(Stdio::piped());
    let mut child = command.stderr(Stdio::piped()).spawn().unwrap();
    let mut input = child.stdin.take().unwrap();
    std::io::Write::write_all(&mut input, TYPED).unwrap();
    drop(input);
    let ended = child.wait_with_output().unwrap();
    let printed = String::from_utf8_lossy(&ended.stdout).into_owned();
    let said = String::from_utf8_lossy(&ended.stderr).into_owned();
    assert!(ended.status.success(), "{}\n{}", printed, said);
    let count = include_str!("host.rs").matches("\n#[ignore").count();
    let all = std::format!("ok. {} passed; 0 failed", count);
    assert!(count > 9 && printed.contains(&all), "{}", printed);
    assert!(printed.contains(std::str::from_utf8(OUTPUT).unwrap()));
    assert!(said.contains("one and two\nthree"), "{}", said);
}

/// A folder for one test.
struct Folder(PathBuf);

impl Folder {
    fn new(name: &str) -> Self {
        let name = std::format!("subsetter-{}-{}", name, std::process::id());
        let path = std::env::temp_dir().join(name);
        std::fs::create_dir(&path).unwrap();
        Folder(path)
    }

    /// A file's name.
    fn at(&self, name: &str) -> String {
        std::format!("{}/{}", self.0.display(), name)
    }

    /// A file's name of `len` bytes: further strokes change nothing.
    fn long(&self, name: &str, len: usize) -> String {
        let folder = self.0.to_str().unwrap();
        let strokes = "/".repeat(len - folder.len() - name.len());
        std::format!("{}{}{}", folder, strokes, name)
    }
}

impl Drop for Folder {
    fn drop(&mut self) {
        let _ = std::fs::remove_dir_all(&self.0);
    }
}

fn put(name: &str, bytes: &[u8]) {
    std::fs::write(name, bytes).unwrap();
}

fn take(name: &str) -> Vec<u8> {
    std::fs::read(name).unwrap()
}

fn is_there(name: &str) -> bool {
    Path::new(name).exists()
}

/// The rights and the number of a file.
fn known(name: &str) -> (u32, u64) {
    let about = std::fs::metadata(name).unwrap();
    (about.mode() & 0o777, about.ino())
}

/// How a call failed: what sort of failure it is, and the system's number.
fn failed<T>(answer: io::Result<T>) -> Option<(ErrorKind, Option<i32>)> {
    answer.err().map(|error| (error.kind(), error.raw_os_error()))
}

const MISSING: Option<(ErrorKind, Option<i32>)> = Some((ErrorKind::NotFound, Some(2)));
const THERE: Option<(ErrorKind, Option<i32>)> = Some((ErrorKind::Other, Some(17)));
const REFUSED: Option<(ErrorKind, Option<i32>)> = Some((ErrorKind::OutOfMemory, None));

/// How many files are open, as far as the system shows it.
fn open_files() -> usize {
    std::fs::read_dir("/proc/self/fd").map_or(0, |all| all.count())
}

/// Whether this `std` requests memory for each name, as that of Rust 1.63 does.
fn is_old() -> bool {
    !asked_by(|| std::fs::metadata("/")).1.is_empty()
}

// ---- memory

type Call<'a> = (&'static str, &'a dyn Fn() -> io::Result<()>);

#[test]
#[ignore = "run by another test"]
fn room_for_a_long_name_is_asked_for() {
    let folder = Folder::new("long");
    let other = folder.at("other");
    put(&other, b"");
    for len in [384, 385, 600] {
        let long = folder.long("file", len);
        put(&long, b"bytes");
        let writing = OpenOptions::new().write(true);
        let calls: [Call; 7] = [
            ("open", &|| fs::open(&HostRuntime, &long).map(drop)),
            ("create", &|| fs::create(&HostRuntime, &long).map(drop)),
            ("write", &|| writing.open(&HostRuntime, &long).map(drop)),
            ("metadata", &|| fs::metadata(&HostRuntime, &long).map(drop)),
            ("symlink_metadata", &|| fs::symlink_metadata(&HostRuntime, &long).map(drop)),
            ("copy from", &|| fs::copy(&HostRuntime, &long, &other).map(drop)),
            ("copy to", &|| fs::copy(&HostRuntime, &other, &long).map(drop)),
        ];
        for (name, call) in calls {
            let (answer, was_refused) = with(0, call);
            assert_eq!(failed(answer), REFUSED, "{} {}", name, len);
            assert!(was_refused, "{} {}", name, len);
            // At least as much is asked for as `std` then requests.
            let (answer, asked) = asked_by(call);
            answer.unwrap();
            let most = asked.iter().skip(1).max();
            assert!(most >= Some(&(len + 1)) && Some(&asked[0]) >= most, "{} {}: {:?}", name, len, asked);
        }
    }
}

#[test]
#[ignore = "run by another test"]
fn room_for_two_names_is_kept_while_a_file_is_new() {
    let folder = Folder::new("kept");
    for len in [folder.at("file").len(), 600] {
        let (name, other) = (folder.long("file", len), folder.long("away", len));
        let new = || {
            let how = OpenOptions::new().write(true).create_new(true);
            how.open(&HostRuntime, &name)
        };
        // Two requests keep room, and that for a long name is one more.
        let count = if len < 384 { 2 } else { 3 };
        for requests in 0..count {
            assert_eq!(failed(with(requests, new).0), REFUSED, "{} {}", len, requests);
            assert!(!is_there(&name), "{} {}", len, requests);
        }
        assert_eq!(failed(fs::remove_file(&HostRuntime, &name)), MISSING);
        let before = held();
        for is_renamed in [true, false] {
            drop(new().unwrap());
            assert!(held() >= before + 2 * (len + 1), "{}", len);
            if is_renamed {
                fs::rename(&HostRuntime, &name, &other).unwrap();
            } else {
                fs::remove_file(&HostRuntime, &name).unwrap();
            }
            assert_eq!(held(), before, "{} {}", len, is_renamed);
        }
        // None is kept of a file that is there.
        put(&name, b"");
        let there = OpenOptions::new().write(true).create_new(true);
        drop(there.create_new(false).open(&HostRuntime, &name).unwrap());
        assert_eq!(held(), before, "{}", len);
        std::fs::remove_file(&name).unwrap();
    }
}

#[test]
#[ignore = "run by another test"]
fn room_is_kept_for_each_of_many_new_files() {
    // (there `std` requests more)
    if is_old() {
        return;
    }
    let folder = Folder::new("many");
    let names: Vec<String> = (0..40).map(|k| folder.at(&std::format!("file{}", k))).collect();
    let mut before = 0;
    for round in 0..2 {
        // (the list of what is kept has grown in the first round)
        before = if round == 0 { before } else { held() };
        for name in &names {
            let new = || {
                let how = OpenOptions::new().write(true).create_new(true);
                how.open(&HostRuntime, name)
            };
            let mut requests = 0;
            loop {
                let (answer, was_refused) = with(requests, new);
                if !was_refused {
                    answer.unwrap();
                    break;
                }
                assert_eq!(failed(answer), REFUSED, "{} {}", name, requests);
                assert!(!is_there(name), "{} {}", name, requests);
                requests += 1;
            }
            assert!(requests >= 2, "{}", name);
        }
        // One that is there is not made again, and no room is kept for that.
        let all = held();
        let again = OpenOptions::new().write(true).create_new(true);
        assert_eq!(failed(again.open(&HostRuntime, &folder.at("none/file"))), MISSING);
        assert_eq!(held(), all);
        let kept: usize = names.iter().map(|it| 2 * (it.len() + 1)).sum();
        assert!(held() >= before + kept);
        for name in names.iter().rev() {
            fs::remove_file(&HostRuntime, name).unwrap();
        }
        assert!(round == 0 || held() == before);
    }
}

// ---- files

#[test]
#[ignore = "run by another test"]
fn files_are_opened_as_they_are_asked_for() {
    let folder = Folder::new("opened");
    let (name, none) = (folder.at("file"), folder.at("none"));
    assert_eq!(failed(fs::open(&HostRuntime, &none)), MISSING);
    let mut file = fs::create(&HostRuntime, &name).unwrap();
    assert_eq!(Write::write(&mut file, b"abcdef").unwrap(), 6);
    Write::flush(&mut file).unwrap();
    OpenFile::sync_data(&file).unwrap();
    assert_eq!(OpenFile::metadata(&file).unwrap().len(), 6);
    // One that is there is written over, and isn't emptied.
    let writing = OpenOptions::new().write(true);
    assert_eq!(failed(writing.open(&HostRuntime, &none)), MISSING);
    let mut file = writing.open(&HostRuntime, &name).unwrap();
    assert_eq!(Write::write(&mut file, b"XY").unwrap(), 2);
    assert_eq!(take(&name), b"XYcdef");
    let mut four = [0; 4];
    let unreadable = Some((ErrorKind::Other, Some(9)));
    assert_eq!(failed(Read::read(&mut file, &mut four)), unreadable);
    let mut file = fs::open(&HostRuntime, &name).unwrap();
    assert_eq!(failed(Write::write(&mut file, b"z")), unreadable);
    assert_eq!(Read::read(&mut file, &mut four).unwrap(), 4);
    assert_eq!(&four, b"XYcd");
    assert_eq!(Read::read(&mut file, &mut four).unwrap(), 2);
    assert_eq!(&four, b"efcd");
    assert_eq!(Read::read(&mut file, &mut four).unwrap(), 0);
    drop(fs::create(&HostRuntime, &name).unwrap());
    assert_eq!(take(&name), b"");
    // A new one isn't there before.
    put(&name, b"there");
    let new = |is_new| {
        let how = OpenOptions::new().write(true).create_new(is_new);
        how.open(&HostRuntime, &name)
    };
    assert_eq!(failed(new(true)), THERE);
    assert_eq!(take(&name), b"there");
    std::fs::remove_file(&name).unwrap();
    assert_eq!(failed(new(false)), MISSING);
    assert!(new(true).is_ok() && take(&name) == b"");
    for how in [OpenOptions::new(), OpenOptions::new().write(true).write(false)] {
        let kind = failed(how.open(&HostRuntime, &name)).map(|it| it.0);
        assert_eq!(kind, Some(ErrorKind::InvalidInput));
    }
}

#[test]
#[ignore = "run by another test"]
fn files_get_names_bytes_and_rights() {
    let folder = Folder::new("names");
    let [one, other, third, fourth, none] = ["one", "other", "third", "fourth", "none"].map(|it| folder.at(it));
    put(&one, b"one");
    put(&other, b"other");
    fs::rename(&HostRuntime, &one, &other).unwrap();
    assert!(!is_there(&one) && take(&other) == b"one");
    assert_eq!(failed(fs::rename(&HostRuntime, &one, &other)), MISSING);
    // A second name, which is free.
    fs::hard_link(&HostRuntime, &other, &one).unwrap();
    assert!(known(&one) == known(&other) && is_there(&other));
    put(&third, b"third");
    assert_eq!(failed(fs::hard_link(&HostRuntime, &third, &one)), THERE);
    assert_eq!((take(&one), take(&third)), (b"one".to_vec(), b"third".to_vec()));
    assert_eq!(failed(fs::hard_link(&HostRuntime, &none, &fourth)), MISSING);
    assert!(!is_there(&fourth));
    // The bytes and the rights of another, in the same file.
    put(&fourth, b"longer than the other");
    let number = known(&fourth).1;
    std::fs::set_permissions(&third, Permissions::from_mode(0o604)).unwrap();
    assert_eq!(fs::copy(&HostRuntime, &third, &fourth).unwrap(), 5);
    assert_eq!((take(&fourth), known(&fourth)), (b"third".to_vec(), (0o604, number)));
    assert_eq!(failed(fs::copy(&HostRuntime, &none, &fourth)), MISSING);
    assert_eq!(take(&third), b"third");
    let file = fs::open(&HostRuntime, &fourth).unwrap();
    OpenFile::set_permissions(&file, Permissions::from_mode(0o640)).unwrap();
    assert_eq!((known(&fourth).0, known(&third).0), (0o640, 0o604));
    fs::remove_file(&HostRuntime, &third).unwrap();
    assert!(!is_there(&third));
    assert_eq!(failed(fs::remove_file(&HostRuntime, &third)), MISSING);
}

#[test]
#[ignore = "run by another test"]
fn what_a_file_lacks_is_reported() {
    // (other systems report it otherwise)
    if !cfg!(target_os = "linux") {
        return;
    }
    let before = open_files();
    let device = fs::open(&HostRuntime, "/dev/null").unwrap();
    let no_call = Some((ErrorKind::InvalidInput, Some(22)));
    assert_eq!(failed(OpenFile::sync_data(&device)), no_call);
    let file = fs::open(&HostRuntime, "/proc/self/comm").unwrap();
    let rights = Permissions::from_mode(0o600);
    assert!(failed(OpenFile::set_permissions(&file, rights)).is_some());
    let full = OpenOptions::new().write(true);
    let mut full = full.open(&HostRuntime, "/dev/full").unwrap();
    let no_room = Some((ErrorKind::StorageFull, Some(28)));
    assert_eq!(failed(Write::write(&mut full, b"x")), no_room);
    let folder = Some((ErrorKind::Other, Some(21)));
    let mut opened = fs::open(&HostRuntime, "/").unwrap();
    assert_eq!(failed(Read::read(&mut opened, &mut [0; 4])), folder);
    assert_eq!(failed(fs::create(&HostRuntime, "/")), folder);
    assert!(open_files() == before + 4 || before == 0);
    drop((device, file, full, opened));
    assert_eq!(open_files(), before);
}

#[test]
#[ignore = "run by another test"]
fn links_are_followed_or_not() {
    let folder = Folder::new("links");
    let (name, link) = (folder.at("file"), folder.at("link"));
    put(&name, b"bytes");
    symlink(&name, &link).unwrap();
    let about = fs::symlink_metadata(&HostRuntime, &link).unwrap();
    assert!(about.file_type().is_symlink());
    let about = fs::metadata(&HostRuntime, &link).unwrap();
    assert!(about.is_file() && about.len() == 5);
    let file = fs::open(&HostRuntime, &link).unwrap();
    assert_eq!(OpenFile::metadata(&file).unwrap().len(), 5);
    fs::remove_file(&HostRuntime, &link).unwrap();
    assert!(std::fs::symlink_metadata(&link).is_err() && is_there(&name));
    symlink("nowhere", &link).unwrap();
    assert_eq!(failed(fs::metadata(&HostRuntime, &link)), MISSING);
    assert!(fs::symlink_metadata(&HostRuntime, &link).is_ok());
    let none = folder.at("none");
    assert_eq!(failed(fs::symlink_metadata(&HostRuntime, &none)), MISSING);
}

#[test]
#[ignore = "run by another test"]
fn a_long_name_is_no_second_one() {
    let folder = Folder::new("second");
    for (len, other_len, is_made) in [(383, 383, true), (384, 383, false), (383, 384, false), (384, 384, false)] {
        let (name, other) = (folder.long("file", len), folder.long("more", other_len));
        put(&name, b"");
        let kind = failed(fs::hard_link(&HostRuntime, &name, &other)).map(|it| it.0);
        let wanted = if is_made { None } else { Some(ErrorKind::Unsupported) };
        assert_eq!((kind, is_there(&other)), (wanted, is_made), "{} {}", len, other_len);
        let _ = std::fs::remove_file(&other);
    }
}

// ---- errors

#[test]
#[ignore = "run by another test"]
fn numbers_of_the_system_have_their_kinds() {
    // (other systems have other numbers)
    if !cfg!(target_os = "linux") {
        return;
    }
    let kinds = [
        (2, ErrorKind::NotFound),
        (4, ErrorKind::Interrupted),
        (22, ErrorKind::InvalidInput),
        (28, ErrorKind::StorageFull),
        (38, ErrorKind::Unsupported),
        (122, ErrorKind::QuotaExceeded),
    ];
    for number in 1..134 {
        let error = Error::from(std::io::Error::from_raw_os_error(number));
        assert_eq!(error.raw_os_error(), Some(number));
        let of_number = kinds.iter().find(|it| it.0 == number);
        let wanted = of_number.map_or(ErrorKind::Other, |it| it.1);
        // (95 says so too, by a `std` that is newer)
        assert!(error.kind() == wanted || number == 95, "{}", number);
    }
}

#[test]
#[ignore = "run by another test"]
fn errors_of_std_have_their_kinds() {
    use std::io::ErrorKind as Std;
    for (kind, wanted) in [
        (Std::NotFound, ErrorKind::NotFound),
        (Std::Interrupted, ErrorKind::Interrupted),
        (Std::InvalidInput, ErrorKind::InvalidInput),
        (Std::Unsupported, ErrorKind::Unsupported),
        (Std::InvalidData, ErrorKind::Other),
        (Std::PermissionDenied, ErrorKind::Other),
        (Std::AlreadyExists, ErrorKind::Other),
        (Std::BrokenPipe, ErrorKind::Other),
        (Std::WouldBlock, ErrorKind::Other),
        (Std::WriteZero, ErrorKind::Other),
        (Std::UnexpectedEof, ErrorKind::Other),
    ] {
        let error = Error::from(std::io::Error::from(kind));
        assert_eq!((error.kind(), error.raw_os_error()), (wanted, None));
        let again = error.with_code(Some(7));
        assert_eq!((again.kind(), again.raw_os_error()), (wanted, Some(7)));
    }
}

/// A text that takes no memory.
struct Line([u8; 200], usize);

impl fmt::Write for Line {
    fn write_str(&mut self, text: &str) -> fmt::Result {
        let end = self.1 + text.len();
        let room = self.0.get_mut(self.1..end).ok_or(fmt::Error)?;
        room.copy_from_slice(text.as_bytes());
        self.1 = end;
        Ok(())
    }
}

#[test]
#[ignore = "run by another test"]
fn the_text_of_an_error_asks_for_its_memory() {
    let mut line = Line([0; 200], 0);
    for number in 1..134 {
        let reason = std::io::Error::from_raw_os_error(number);
        let text = reason.to_string();
        let error = Error::from(reason);
        assert_eq!(error.to_string(), text);
        let mut write = || fmt::Write::write_fmt(&mut line, format_args!("{}", error));
        assert_eq!(with(0, &mut write), (Err(fmt::Error), true));
        let (answer, asked) = asked_by(&mut write);
        assert!(answer.is_ok() && asked.len() > 1, "{:?}", asked);
        assert!(asked[1..].iter().all(|it| *it <= asked[0]), "{:?}", asked);
        assert_eq!(&line.0[..line.1], text.as_bytes());
        line.1 = 0;
    }
    // It isn't printed without that, and nothing is ended.
    let error = Error::from(std::io::Error::from_raw_os_error(5));
    let (answer, was_refused) = with(0, || HostRuntime.eprintln(error));
    let other = Some((ErrorKind::Other, None));
    assert_eq!((failed(answer), was_refused), (other, true));
    for (kind, text) in [
        (ErrorKind::OutOfMemory, "out of memory"),
        (ErrorKind::Other, "other error"),
        (ErrorKind::InvalidData, "other error"),
    ] {
        let error = Error::from(kind);
        let mut write = || fmt::Write::write_fmt(&mut line, format_args!("{}", error));
        assert_eq!(with(0, &mut write), (Ok(()), false));
        assert_eq!(&line.0[..line.1], text.as_bytes());
        line.1 = 0;
    }
}

// ---- the process

#[test]
#[ignore = "run by another test"]
fn arguments_are_those_of_the_process() {
    let _ = std::io::stdout();
    let args = env::args(&HostRuntime).unwrap();
    let args: Vec<String> = args.map(|it| it.as_str().to_string()).collect();
    assert_eq!(args, std::env::args().collect::<Vec<_>>());
    assert_eq!(args.len(), 6);
    // Room is asked for, for the standard output and then for the arguments, before `std` takes some.
    let count = if is_old() { 1 } else { 2 };
    for requests in 0..count {
        let (answer, was_refused) = with(requests, || env::args(&HostRuntime));
        assert_eq!((failed(answer), was_refused), (REFUSED, true), "{}", requests);
    }
    assert_eq!(failed(with(0, prepare).0), REFUSED);
    let (_, asked) = asked_by(|| env::args(&HostRuntime));
    let of_each = std::mem::size_of::<OsString>() + 32;
    // (each has a final zero)
    let all: usize = args.iter().map(|it| it.len() + 1 + of_each).sum();
    assert!(asked[0] >= 1024, "{:?}", asked);
    let is_shown = Path::new("/proc/self/cmdline").exists();
    assert!(asked[1..].contains(&all) || !is_shown, "{:?}, {}", asked, all);
}

#[test]
#[ignore = "run by another test"]
fn standard_streams_are_read_and_written() {
    let before = open_files();
    let mut reader = HostRuntime.reader();
    let mut bytes = [0; 8];
    let (answer, was_refused) = with(0, || reader.read(&mut bytes[..2]));
    assert_eq!((failed(answer), was_refused), (REFUSED, true));
    // Nothing is read of what isn't wanted, and room is asked for once.
    let (answer, asked) = asked_by(|| reader.read(&mut bytes[..2]));
    assert!(answer.unwrap() == 2 && asked[0] >= 8192, "{:?}", asked);
    let (answer, was_refused) = with(0, || reader.read(&mut bytes[2..]));
    assert_eq!((answer.unwrap(), was_refused), (TYPED.len() - 2, false));
    assert_eq!(&bytes[..5], TYPED);
    assert_eq!(reader.read(&mut bytes).unwrap(), 0);
    let (answer, was_refused) = with(0, || HostRuntime.write_some(OUTPUT));
    assert_eq!((answer.unwrap(), was_refused), (OUTPUT.len(), false));
    let (answer, was_refused) = with(0, || {
        HostRuntime.eprintln(format_args!("{} and two", "one"))?;
        HostRuntime.eprint("three\n")
    });
    assert!(answer.is_ok() && !was_refused);
    assert_eq!(open_files(), before);
}

/// What takes every second byte, and fails where there is none.
struct Half(RefCell<Vec<u8>>);

impl Print for Half {
    fn write_some(&self, bytes: &[u8]) -> io::Result<usize> {
        if bytes.is_empty() {
            return Err(ErrorKind::QuotaExceeded.into());
        }
        let count = bytes.len() / 2;
        self.0.borrow_mut().extend_from_slice(&bytes[..count]);
        Ok(count)
    }
}

impl Eprint for Half {
    fn eprint<D: fmt::Display>(&self, text: D) -> io::Result<()> {
        let text = text.to_string();
        if text == "no\n" {
            return Err(ErrorKind::StorageFull.into());
        }
        self.0.borrow_mut().extend_from_slice(text.as_bytes());
        Ok(())
    }
}

#[test]
#[ignore = "run by another test"]
fn short_writes_and_failures_are_passed_on() {
    let half = Half(RefCell::new(Vec::new()));
    let mut writer = io::writer(&half);
    assert_eq!(writer.write(b"abcdefg").unwrap(), 3);
    writer.flush().unwrap();
    let full = Some((ErrorKind::QuotaExceeded, None));
    assert_eq!(failed(writer.write(b"")), full);
    // (of one byte nothing is taken)
    let failure = writer.write_all(b"1234").unwrap_err();
    assert_eq!(failure.kind(), ErrorKind::Other);
    half.eprintln("line").unwrap();
    half.eprint(7).unwrap();
    assert_eq!(half.0.borrow().as_slice(), b"abc123line\n7");
    let full = Some((ErrorKind::StorageFull, None));
    assert_eq!(failed(half.eprintln("no")), full);
}

/// A status.
struct Ended(u8);

impl Termination for Ended {
    fn report<R: Eprint>(self, _rt: &R) -> ExitCode {
        ExitCode::from(self.0)
    }
}

/// A `main`, and its status.
type Main = (fn(HostRuntime) -> Ended, u8);

#[test]
#[ignore = "run by another test"]
fn the_status_of_main_is_that_of_the_process() {
    let statuses: [Main; 3] = [(|_| Ended(0), 0), (|_| Ended(3), 3), (|_| Ended(255), 255)];
    for (main, status) in statuses {
        let ended = std::format!("{:?}", process::start(main));
        assert_eq!(ended, std::format!("{:?}", ExitCode::from(status)));
    }
}
