//! The files of a repository, as texts by their paths from its root.

use std::collections::BTreeMap;
use std::fs;
use std::io;
use std::path::Path;

/// The texts.
pub type Files = BTreeMap<String, String>;

/// All files of specifications, proofs and code below `crates`.
pub fn read(root: &Path) -> io::Result<Files> {
    let mut files = Files::new();
    for entry in fs::read_dir(root.join("crates"))? {
        let name = entry?.file_name().into_string().map_err(|_| io::Error::other("a crate's name is not UTF-8"))?;
        for room in ["specs", "proofs", "src"] {
            add(root, &format!("crates/{name}/{room}"), &mut files)?;
        }
    }
    Ok(files)
}

/// Adds a folder's files, and those of the folders in it. A crate need not have every folder.
fn add(root: &Path, folder: &str, files: &mut Files) -> io::Result<()> {
    let entries = match fs::read_dir(root.join(folder)) {
        Err(reason) if reason.kind() == io::ErrorKind::NotFound => return Ok(()),
        entries => entries?,
    };
    for entry in entries {
        let entry = entry?;
        let path = format!("{folder}/{}", entry.file_name().to_string_lossy());
        if entry.file_type()?.is_dir() {
            add(root, &path, files)?;
        } else if path.ends_with(".antt") || path.ends_with(".rt") {
            let text =
                fs::read_to_string(entry.path()).map_err(|reason| io::Error::other(format!("{path}: {reason}")))?;
            files.insert(path, text);
        }
    }
    Ok(())
}
