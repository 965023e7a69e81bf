//! The captures below a folder, and the names of their frames.

use std::ffi::OsString;
use std::fs;
use std::io;
use std::path::{Component, Path, PathBuf};

use anyhow::anyhow;
use walkdir::{DirEntry, WalkDir};

use crate::capture::{PARTS, is_capture, is_state, named_as_state};

/// A capture, or something that says it is one, and the path of its frame below the folder of frames.
pub struct Found {
    pub path: PathBuf,
    pub frame: PathBuf,
}

/// What a walk came to. What couldn't be looked into may hold captures, so it is reported.
#[derive(Default)]
pub struct Tree {
    pub captures: Vec<Found>,
    pub unreadable: Vec<(PathBuf, anyhow::Error)>,
}

/// Walks a folder in the order of names. A link is followed, unless it leads back to a folder that the walk is in. What
/// lies in the folder of frames, `out`, is no capture.
pub fn captures(folder: &Path, out: &Path) -> Tree {
    // Where the folder itself is a capture, its frame needs a name, and what lies below it goes below that name.
    let own_name = fs::canonicalize(folder).ok().and_then(|folder| folder.file_name().map(PathBuf::from));
    let place = if is_capture(folder) { own_name.unwrap_or_else(|| "capture".into()) } else { PathBuf::new() };
    let mut walk = Walk { folder, place, last: PathBuf::new(), tree: Tree::default() };
    let out = fs::canonicalize(out).ok();
    // The frames' folder, or one that the walk is in.
    let passed_over = |path: &Path| {
        let real = fs::canonicalize(path).ok();
        let mut above = path.ancestors().skip(1).take_while(|above| above.starts_with(folder));
        real.is_some() && (real == out || above.any(|above| fs::canonicalize(above).ok() == real))
    };
    let entries = WalkDir::new(folder).follow_links(true).sort_by_file_name().into_iter();
    let wanted = |entry: &DirEntry| entry.depth() == 0 || !entry.file_type().is_dir() || !passed_over(entry.path());
    for entry in entries.filter_entry(wanted) {
        match entry {
            Ok(entry) => walk.entry(&entry),
            Err(error) => walk.error(&error),
        }
    }
    walk.tree
}

struct Walk<'a> {
    /// The first folder, and its place among the frames.
    folder: &'a Path,
    place: PathBuf,
    /// The last entry, from the first folder.
    last: PathBuf,
    tree: Tree,
}

impl Walk<'_> {
    fn entry(&mut self, entry: &DirEntry) {
        let path = entry.path();
        self.last = self.below(path).to_owned();
        let judged = match entry.file_type() {
            kind if kind.is_dir() => Ok(is_capture(path)),
            // Its folder is the capture, if the file can be seen.
            _ if PARTS.iter().any(|part| path.ends_with(part)) => path.symlink_metadata().map(|_| false),
            kind if kind.is_file() => is_state(path).map(|is_state| is_state || named_as_state(path)),
            // A pipe would be waited for.
            _ if named_as_state(path) => Err(io::Error::other("not a file")),
            _ => Ok(false),
        };
        match judged {
            Ok(true) => self.found(path),
            Ok(false) => {}
            Err(error) => self.report(path, &error.to_string()),
        }
    }

    fn error(&mut self, error: &walkdir::Error) {
        match (error.path(), error.io_error()) {
            // A link that leads back up.
            (_, None) => {}
            // The walk doesn't name a link to a folder that is shut; it lies in the last entry's folder of its depth.
            (None, Some(cause)) => {
                let inside: PathBuf = self.last.components().take(error.depth().saturating_sub(1)).collect();
                self.report(&self.folder.join(inside), &format!("a link in it: {cause}"));
            }
            (Some(path), Some(cause)) if cause.kind() != io::ErrorKind::NotFound => {
                self.report(path, &cause.to_string())
            }
            // A link to nothing.
            (Some(path), _) if named_as_state(path) => self.found(path),
            _ => {}
        }
    }

    fn below<'a>(&self, path: &'a Path) -> &'a Path {
        path.strip_prefix(self.folder).unwrap_or(path)
    }

    fn found(&mut self, path: &Path) {
        let frame = frame_name(&self.place.join(self.below(path)));
        self.tree.captures.push(Found { path: path.to_owned(), frame });
    }

    fn report(&mut self, path: &Path, cause: &str) {
        let error = anyhow!("can't be read: {cause}, expected a folder or a file that can; let it be read or move it");
        self.tree.unreadable.push((path.to_owned(), error.context(path.display().to_string())));
    }
}

/// The frame of a capture at this place in the tree: the same path with `.png` after it. So a name says which capture
/// it is of, no two are the same, and none is that of a folder, since a folder `x.png` becomes `x.png.d`.
fn frame_name(place: &Path) -> PathBuf {
    let mut parts: Vec<OsString> = place.components().map(Component::as_os_str).map(OsString::from).collect();
    let last = parts.pop().unwrap_or_default();
    let folders = parts.into_iter().map(folder_name);
    let mut frame: PathBuf = folders.collect();
    let mut name = last;
    name.push(".png");
    frame.push(name);
    frame
}

/// One more `.d` after `.png`, `.png.d` and so on, so that no two folders become the same.
fn folder_name(mut name: OsString) -> OsString {
    if name.to_string_lossy().trim_end_matches(".d").ends_with(".png") {
        name.push(".d");
    }
    name
}

#[cfg(test)]
mod tests {
    use std::collections::BTreeSet;

    use super::*;

    #[test]
    fn frames_mirror_the_tree_and_never_collide() {
        let name = |place: &str| frame_name(Path::new(place)).to_str().unwrap().to_owned();
        assert_eq!(name("a/07"), "a/07.png");
        assert_eq!(name("game.ss0"), "game.ss0.png");
        assert_eq!(name("x.png/y"), "x.png.d/y.png");
        let places = ["x", "x.png", "x.ss0", "x.png/x", "x.png.d/x", "x.png.d.d/x", "x/x", "x/x.png", "x.d/x"];
        let frames: BTreeSet<String> = places.iter().map(|place| name(place)).collect();
        assert_eq!(frames.len(), places.len());
        let folders = frames.iter().flat_map(|frame| Path::new(frame).ancestors().skip(1));
        assert!(folders.into_iter().all(|folder| !frames.contains(folder.to_str().unwrap())));
    }
}
