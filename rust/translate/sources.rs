//! The texts of a crate.
use super::crates::Crate;
use super::refused::Refused;
use std::collections::BTreeMap;
use std::fs;
use std::path::Path;

/// The sources of a crate.
pub struct Sources {
    /// The crate.
    pub own: Crate,
    /// The texts of its files, by their places below the folder of the sources, without the ending: `lib`, `words`.
    pub texts: BTreeMap<String, String>,
}

impl Sources {
    /// Reads the sources of a crate in the checkout at `top`.
    pub fn read(top: &Path, own: &Crate) -> Result<Sources, Refused> {
        let mut sources = Sources { own: own.clone(), texts: BTreeMap::new() };
        let mut folders = vec![String::new()];
        while let Some(below) = folders.pop() {
            let path = format!("{}/{below}", own.folder());
            for entry in fs::read_dir(top.join(&path)).map_err(|error| Refused::unread(&path, &error))? {
                let entry = entry.map_err(|error| Refused::unread(&path, &error))?;
                let name = entry.file_name().to_string_lossy().into_owned();
                if entry.path().is_dir() {
                    folders.push(format!("{below}{name}/"));
                } else if let Some(stem) = name.strip_suffix(".rt") {
                    let place = format!("{below}{stem}");
                    let text = read_text(top, &sources.file(&place))?;
                    sources.texts.insert(place, text);
                }
            }
        }
        Ok(sources)
    }

    /// The path of a file from the top of the repository.
    pub fn file(&self, place: &str) -> String {
        format!("{}/{place}.rt", self.own.folder())
    }
}

fn read_text(top: &Path, file: &str) -> Result<String, Refused> {
    let bytes = fs::read(top.join(file)).map_err(|error| Refused::unread(file, &error))?;
    String::from_utf8(bytes).map_err(|error| {
        let front = &error.as_bytes()[..error.utf8_error().valid_up_to()];
        let line = 1 + front.iter().filter(|&&byte| byte == b'\n').count();
        Refused::at(file, line, "a byte that isn't UTF-8")
    })
}
