//! An archive as shared objects, in each of which its code stands at another place.

use crate::library::Library;
use crate::loaded::Loaded;
use std::fs;
use std::io::ErrorKind;
use std::path::{Path, PathBuf};
use std::process::Command;

/// The places: one each 16 bytes of a line of the processor's cache.
pub const PLACES: usize = 4;
const APART: usize = 16;
const LINE: usize = 64;

/// A folder that goes away in the end.
pub struct Folder(PathBuf);

impl Folder {
    pub fn new() -> Result<Folder, String> {
        let path = std::env::temp_dir().join(format!("speed-{}", std::process::id()));
        match fs::create_dir(&path) {
            Ok(()) => Ok(Folder(path)),
            Err(error) => Err(format!("{}: {error}", path.display())),
        }
    }
}

impl Drop for Folder {
    fn drop(&mut self) {
        // What is left of a temporary folder harms nobody.
        let _ = fs::remove_dir_all(&self.0);
    }
}

/// An archive at each place.
pub struct Placed {
    pub objects: [PathBuf; PLACES],
    pub loaded: Vec<Library<Loaded>>,
}

impl Placed {
    /// Makes the objects and loads them. The error is what to tell.
    pub fn new(folder: &Folder, name: &str, archive: &Path) -> Result<Placed, String> {
        if !archive.is_file() {
            return Err(format!(
                "no archive {}: `rt lib` in the folder crates/embed of a checkout makes one, out/libembed.a",
                archive.display()
            ));
        }
        let objects = std::array::from_fn(|place| folder.0.join(format!("{name}-{place}.so")));
        let mut loaded = Vec::new();
        for (place, object) in objects.iter().enumerate() {
            link(folder, place, archive, object)?;
            let told = |error| format!("{}: {error}", archive.display());
            loaded.push(Library(Loaded::open(object).map_err(told)?));
        }
        if !apart(&loaded) {
            return Err(format!(
                "{}: cc did not put its code at {PLACES} places, {APART} bytes apart",
                archive.display()
            ));
        }
        Ok(Placed { objects, loaded })
    }
}

/// Whether each place is as far beyond the first as it is meant to be.
fn apart(loaded: &[Library<Loaded>]) -> bool {
    let in_line = |place: usize, first: usize| (place * APART + first) % LINE;
    let stands = |library: &Library<Loaded>| library.0.place() % LINE;
    let first = stands(&loaded[0]);
    let mut placed = loaded.iter().enumerate();
    placed.all(|(place, library)| stands(library) == in_line(place, first))
}

/// Makes the shared object of an archive: all of it, behind a pad that moves its code on to the place.
fn link(folder: &Folder, place: usize, archive: &Path, object: &Path) -> Result<(), String> {
    let pad = folder.0.join("pad.s");
    fs::write(&pad, pad_text(place)).map_err(|error| error.to_string())?;
    let made = Command::new("cc")
        .args(["-shared", "-nostartfiles", "-Wl,-Bsymbolic", "-o"])
        .args([object, &pad])
        .arg("-Wl,--whole-archive")
        .arg(archive)
        .arg("-Wl,--no-whole-archive")
        .output();
    match made {
        Ok(output) if output.status.success() => Ok(()),
        Ok(output) => Err(format!(
            "cc can't link {}:\n{}",
            archive.display(),
            String::from_utf8_lossy(&output.stderr)
        )),
        Err(error) if error.kind() == ErrorKind::NotFound => Err(
            "no cc on the path to link the archives by: install a C compiler (Debian package gcc)"
                .into(),
        ),
        Err(error) => Err(format!("cc: {error}")),
    }
}

/// A pad in assembler: as many bytes as the place is beyond the start of a line.
fn pad_text(place: usize) -> String {
    let bytes = place * APART;
    format!(".text\n.balign {LINE}\n.fill {bytes}\n.section .note.GNU-stack,\"\",@progbits\n")
}
