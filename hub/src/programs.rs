//! Where the program `tsd` is, and how it is given an image.

use std::env;
use std::path::{Path, PathBuf};

const WORDS: [&str; 2] = ["help", "mirror"];

/// The program: the one that is named, else that of the variable TSD_PROGRAM, else the one that was installed with this
/// one or stands in its clone, else `tsd` on the path.
pub fn program(named: Option<&str>) -> Result<String, String> {
    let named = named.map(str::to_owned).or_else(|| env::var("TSD_PROGRAM").ok().filter(|name| !name.is_empty()));
    named.or_else(beside).or_else(on_path).ok_or("no program tsd was found; TSD_PROGRAM may name it".into())
}

fn beside() -> Option<String> {
    let own = env::current_exe().ok()?;
    let folders = [own.parent(), own.ancestors().nth(4)];
    let found = folders.into_iter().flatten().map(|folder| folder.join("tsd")).find(|path| path.is_file());
    found.and_then(text)
}

fn on_path() -> Option<String> {
    let folders = env::var_os("PATH")?;
    env::split_paths(&folders).map(|folder| folder.join("tsd")).find(|path| path.is_file()).and_then(text)
}

fn text(path: PathBuf) -> Option<String> {
    path.into_os_string().into_string().ok()
}

/// The image as a word that the program takes for no other.
pub fn image_word(image: &str) -> String {
    let is_word = WORDS.contains(&image) || (image.starts_with('-') && image != "-");
    if is_word && !Path::new(image).is_absolute() {
        return format!("./{image}");
    }
    image.to_owned()
}
