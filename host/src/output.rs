//! Reading a text, and writing what is done: whole, or not at all.

use crate::finding::MOST;
use crate::stop::Stop;
use std::ffi::OsStr;
use std::fs::{self, File, Metadata, OpenOptions};
use std::io::{self, ErrorKind, IsTerminal, Read, Write};
use std::os::fd::AsFd;
use std::os::unix::fs::MetadataExt;
use std::path::Path;

/// The bytes of a file, a pipe, or standard input for `-`; no more of them than shows that a text is too long.
pub fn text(path: &OsStr) -> Result<Vec<u8>, Stop> {
    let mut bytes = Vec::new();
    let most = MOST as u64 + 1;
    if path == "-" && io::stdin().is_terminal() {
        say("type the text, then Ctrl-D on a line of its own");
    }
    let read = if path == "-" {
        io::stdin().lock().take(most).read_to_end(&mut bytes)
    } else {
        File::open(path).and_then(|file| file.take(most).read_to_end(&mut bytes))
    };
    let name = if path == "-" { "standard input".to_string() } else { quoted(path) };
    match read {
        Ok(_) => Ok(bytes),
        Err(error) if error.kind() == ErrorKind::IsADirectory => {
            Err(Stop::Failed(format!("cannot read {name}: it is a folder")))
        }
        Err(error) => Err(Stop::Failed(format!("cannot read {name}: {error}"))),
    }
}

/// What can stand for a text's file in a command: its name, and `-` for what has none that a shell could take.
pub fn callable(path: &OsStr) -> &str {
    let is_plain = Path::new(path).is_file();
    let is_passing = ["/dev", "/proc"].iter().any(|folder| Path::new(path).starts_with(folder));
    path.to_str().filter(|_| is_plain && !is_passing).unwrap_or("-")
}

fn quoted(path: &OsStr) -> String {
    format!("'{}'", path.to_string_lossy())
}

/// Says a line on standard error; where that is closed or full there is nobody to tell.
pub fn say(line: &str) {
    let _ = writeln!(io::stderr(), "barrier: {line}");
}

/// Writes all of an answer to standard output.
pub fn print(answer: &str) -> Result<(), Stop> {
    let mut out = io::stdout().lock();
    match out.write_all(answer.as_bytes()).and_then(|()| out.flush()) {
        Ok(()) => Ok(()),
        Err(error) if error.kind() == ErrorKind::BrokenPipe => Err(Stop::Quiet),
        Err(error) => Err(Stop::Failed(format!("cannot write to standard output: {error}"))),
    }
}

/// Writes a file under a temporary name beside it and renames it then, so that there is never half of one. A pipe or a device is written to as it
/// is, and `-` and whatever else is standard output goes there.
pub fn save(path: &OsStr, content: &str) -> Result<(), Stop> {
    let fail = |words: String| Stop::Failed(format!("cannot write {}: {words}", quoted(path)));
    let failed = |error: io::Error| fail(error.to_string());
    match fs::metadata(path) {
        _ if path == "-" => print(content),
        Ok(there) if is_standard_output(&there) => print(content),
        Ok(there) if there.is_dir() => Err(fail("it is a folder".to_string())),
        Ok(there) if there.is_file() => {
            OpenOptions::new().write(true).open(path).map_err(failed)?; // one that may not be written stays
            fs::canonicalize(path)
                .and_then(|path| replace(&path, content, Some(&there)))
                .map_err(failed)
        }
        Ok(_) => {
            let pipe = OpenOptions::new().write(true).open(path);
            pipe.and_then(|mut pipe| pipe.write_all(content.as_bytes())).map_err(failed)
        }
        Err(error) if error.kind() != ErrorKind::NotFound => Err(failed(error)),
        Err(_) if fs::symlink_metadata(path).is_ok() => {
            Err(fail("it is a link to nothing".to_string()))
        }
        Err(_) => replace(Path::new(path), content, None).map_err(failed),
    }
}

/// Whether two names are of one file; what isn't there is none.
pub fn is_same(one: &OsStr, other: &OsStr) -> bool {
    match (fs::metadata(one), fs::metadata(other)) {
        (Ok(one), Ok(other)) => identity(&one) == identity(&other) && one.is_file(),
        _ => false,
    }
}

fn identity(file: &Metadata) -> (u64, u64) {
    (file.dev(), file.ino())
}

fn is_standard_output(there: &Metadata) -> bool {
    let out = io::stdout().as_fd().try_clone_to_owned().map(File::from);
    out.and_then(|out| out.metadata()).is_ok_and(|out| identity(&out) == identity(there))
}

/// The file that was there, if any, gives the new one its permissions.
fn replace(path: &Path, content: &str, before: Option<&Metadata>) -> io::Result<()> {
    let temporary = path.with_file_name(format!(".barrier.{}.part", std::process::id()));
    let mut file = OpenOptions::new().write(true).create_new(true).open(&temporary)?;
    let written = file
        .write_all(content.as_bytes())
        .and_then(|()| before.map_or(Ok(()), |before| file.set_permissions(before.permissions())))
        .and_then(|()| file.sync_all())
        .and_then(|()| fs::rename(&temporary, path));
    if written.is_err() {
        let _ = fs::remove_file(&temporary);
    }
    written
}
