//! The files in the tree, against those that are to be there.

use std::collections::BTreeSet;
use std::fs;
use std::io::{self, ErrorKind};
use std::path::Path;

/// A file that is to be in the tree.
#[derive(Clone, Debug)]
pub struct File {
    /// Where it is, from the repository's root.
    pub path: String,
    /// What it is about.
    pub title: String,
    /// What it holds.
    pub content: Content,
}

/// What a file holds.
#[derive(Clone, Debug, PartialEq, Eq)]
pub enum Content {
    /// These bytes.
    Bytes(Vec<u8>),
    /// It is a link to this path.
    Link(String),
}

/// Writes those files that are not as they are to be; answers which.
pub fn write<'a>(root: &Path, files: &'a [File]) -> io::Result<Vec<&'a str>> {
    let mut written = Vec::new();
    for file in files {
        let path = root.join(&file.path);
        let old = content(&path)?;
        if old.as_ref() == Some(&file.content) {
            continue;
        }
        if let Some(folder) = path.parent() {
            fs::create_dir_all(folder)?;
        }
        if matches!((&old, &file.content), (Some(Content::Link(_)), _) | (Some(_), Content::Link(_))) {
            fs::remove_file(&path)?;
        }
        match &file.content {
            Content::Bytes(bytes) => fs::write(&path, bytes)?,
            Content::Link(target) => std::os::unix::fs::symlink(target, &path)?,
        }
        written.push(file.path.as_str());
    }
    Ok(written)
}

/// A line for each file that differs, is missing, or is there although it is not to be.
pub fn differences(root: &Path, files: &[File]) -> io::Result<Vec<String>> {
    let mut lines = Vec::new();
    for file in files {
        let word = match content(&root.join(&file.path))? {
            Some(content) if content == file.content => continue,
            Some(_) => "differs",
            None => "is missing",
        };
        lines.push(format!("{} {word} ({})", file.path, file.title));
    }
    let expected: BTreeSet<&str> = files.iter().map(|file| file.path.as_str()).collect();
    let surplus = stored(root)?.into_iter().filter(|path| !expected.contains(path.as_str()));
    lines.extend(surplus.map(|path| format!("{path} is surplus")));
    Ok(lines)
}

/// What a path holds, if there is something.
fn content(path: &Path) -> io::Result<Option<Content>> {
    match fs::symlink_metadata(path) {
        Ok(about) if about.is_symlink() => {
            Ok(Some(Content::Link(fs::read_link(path)?.to_string_lossy().into_owned())))
        }
        Ok(_) => fs::read(path).map(Content::Bytes).map(Some),
        Err(error) if error.kind() == ErrorKind::NotFound => Ok(None),
        Err(error) => Err(error),
    }
}

/// All files of the tree that stand where files are written: data files, stored inputs, arguments and
/// outputs of the crates, and the examples.
fn stored(root: &Path) -> io::Result<Vec<String>> {
    let mut paths = Vec::new();
    for crate_name in names(&root.join("crates"))? {
        let folder = format!("crates/{crate_name}");
        let data = names(&root.join(&folder).join("data"))?;
        paths.extend(data.into_iter().map(|name| format!("{folder}/data/{name}")));
        let others = ["args", "stdin", "stdout"].map(|name| format!("{folder}/{name}"));
        paths.extend(others.into_iter().filter(|path| root.join(path).exists()));
    }
    let examples = names(&root.join("examples"))?.into_iter().filter(|name| name != "README.md");
    paths.extend(examples.map(|name| format!("examples/{name}")));
    Ok(paths)
}

/// The names of what is in a folder, in rising order; none where there is no such folder.
fn names(folder: &Path) -> io::Result<Vec<String>> {
    let entries = match fs::read_dir(folder) {
        Err(error) if error.kind() == ErrorKind::NotFound || error.kind() == ErrorKind::NotADirectory => {
            return Ok(Vec::new())
        }
        entries => entries?,
    };
    let name = |entry: io::Result<fs::DirEntry>| Ok(entry?.file_name().to_string_lossy().into_owned());
    let mut names = entries.map(name).collect::<io::Result<Vec<String>>>()?;
    names.sort_unstable();
    Ok(names)
}

#[cfg(test)]
mod tests {
    use super::*;

    fn file(path: &str, content: Content) -> File {
        File { path: path.to_owned(), title: "a title".to_owned(), content }
    }

    #[test]
    fn written_and_checked() {
        let root = std::env::temp_dir().join(format!("vectors-{}", std::process::id()));
        let data = "crates/some_test/data/00";
        let link = Content::Link("../crates/some_test/data/00".to_owned());
        let files = [file(data, Content::Bytes(b"x\n".to_vec())), file("examples/some", link)];
        let check = || differences(&root, &files).unwrap();
        let missing = ["crates/some_test/data/00 is missing (a title)", "examples/some is missing (a title)"];
        assert_eq!(check(), missing);
        assert_eq!(write(&root, &files).unwrap(), [data, "examples/some"]);
        assert!(check().is_empty());
        assert!(write(&root, &files).unwrap().is_empty());

        fs::write(root.join(data), b"y\n").unwrap();
        fs::remove_file(root.join("examples/some")).unwrap();
        fs::write(root.join("examples/some"), b"x\n").unwrap();
        fs::write(root.join("examples/README.md"), b"no vector").unwrap();
        fs::write(root.join("crates/some_test/stdin"), b"").unwrap();
        fs::write(root.join("crates/some_test/data/01"), b"").unwrap();
        let wanted = [
            "crates/some_test/data/00 differs (a title)",
            "examples/some differs (a title)",
            "crates/some_test/data/01 is surplus",
            "crates/some_test/stdin is surplus",
        ];
        assert_eq!(check(), wanted);
        write(&root, &files).unwrap();
        assert_eq!(check(), wanted[2..]);
        fs::remove_dir_all(&root).unwrap();
    }
}
