//! What mutants are made of: schedules, tapes and scripts of a folder, and the
//! areas that its schedules leave.

use std::path::Path;
use std::{fs, io};

use crate::areas_of;

pub struct Stock {
    pub schedules: Vec<Vec<u8>>,
    pub tapes: Vec<Vec<u8>>,
    pub scripts: Vec<Vec<u8>>,
    pub areas: Vec<[Vec<u8>; 2]>,
}

impl Stock {
    /// The files of a folder by their endings, in the order of their names.
    pub fn of_folder(folder: &Path) -> io::Result<Stock> {
        let mut paths = Vec::new();
        for entry in fs::read_dir(folder)? {
            paths.push(entry?.path());
        }
        paths.sort();
        let texts_of = |ending: &str| -> io::Result<Vec<Vec<u8>>> {
            let has_ending =
                |path: &&std::path::PathBuf| path.extension().is_some_and(|it| it == ending);
            let texts: io::Result<Vec<_>> = paths.iter().filter(has_ending).map(fs::read).collect();
            match texts {
                Ok(texts) if texts.is_empty() => {
                    Err(io::Error::other(format!("no {ending} in the folder")))
                }
                texts => texts,
            }
        };
        let schedules = texts_of("schedule")?;
        let areas = schedules.iter().map(|text| areas_of(text)).collect();
        Ok(Stock {
            schedules,
            tapes: texts_of("tape")?,
            scripts: texts_of("script")?,
            areas,
        })
    }
}
