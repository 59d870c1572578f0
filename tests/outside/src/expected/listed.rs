//! The sample texts: the files of a crate's folder `data`, in the order of its file `args`.

use std::collections::BTreeSet;
use std::fs;
use std::path::Path;

pub fn content(path: &Path) -> Result<Vec<u8>, String> {
    fs::read(path).map_err(|error| format!("{}: {error}", path.display()))
}

/// Name and text of each file; an error says which one is not listed, listed twice or missing.
pub fn listed(folder: &Path) -> Result<Vec<(String, Vec<u8>)>, String> {
    let args =
        String::from_utf8(content(&folder.join("args"))?).map_err(|error| error.to_string())?;
    let data = folder.join("data");
    each_once(&args, &files_of(&data)?)?;
    args.lines().map(|name| Ok((name.to_owned(), content(&data.join(name))?))).collect()
}

/// The files in a folder and in those within it, by their paths from the folder.
fn files_of(folder: &Path) -> Result<BTreeSet<String>, String> {
    let wrong = |error: std::io::Error| format!("{}: {error}", folder.display());
    let mut files = BTreeSet::new();
    for entry in fs::read_dir(folder).map_err(wrong)? {
        let path = entry.map_err(wrong)?.path();
        let name = path.file_name().and_then(|name| name.to_str());
        let name = name.ok_or_else(|| format!("not a name: {}", path.display()))?;
        if path.is_dir() {
            files.extend(files_of(&path)?.into_iter().map(|file| format!("{name}/{file}")));
        } else {
            files.insert(name.to_owned());
        }
    }
    Ok(files)
}

fn each_once(args: &str, files: &BTreeSet<String>) -> Result<(), String> {
    let mut left: BTreeSet<&str> = files.iter().map(String::as_str).collect();
    for name in args.lines() {
        if !left.remove(name) {
            return Err(format!("{name} is listed, and is no file or was listed before"));
        }
    }
    match left.first() {
        Some(file) => Err(format!("{file} is not listed")),
        None => Ok(()),
    }
}

#[cfg(test)]
mod tests {
    use super::each_once;

    #[test]
    fn every_file_is_listed_once() {
        let files = ["a.sheet", "j/0_yards.sheet"].map(str::to_owned).into();
        let fault = |args| each_once(args, &files).err().unwrap_or_default();
        assert_eq!(fault("a.sheet\nj/0_yards.sheet\n"), "");
        assert_eq!(fault("j/0_yards.sheet\na.sheet\n"), "");
        assert_eq!(fault("a.sheet\n"), "j/0_yards.sheet is not listed");
        assert_eq!(fault(""), "a.sheet is not listed");
        let other = "b.sheet is listed, and is no file or was listed before";
        assert_eq!(fault("a.sheet\nj/0_yards.sheet\nb.sheet\n"), other);
        let twice = "a.sheet is listed, and is no file or was listed before";
        assert_eq!(fault("a.sheet\na.sheet\nj/0_yards.sheet\n"), twice);
    }
}
