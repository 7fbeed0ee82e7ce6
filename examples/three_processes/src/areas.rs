//! The two areas of a node, in two files of a folder that this process alone has. A thread writes them where that takes its time, so that the
//! node goes on hearing meanwhile.

use std::fs::{self, File, OpenOptions};
use std::io::{self, Read, Write};
use std::os::unix::fs::FileExt;
use std::os::unix::net::UnixStream;
use std::path::Path;
use std::sync::Arc;
use std::sync::mpsc::{Receiver, Sender, channel};
use std::thread;
use std::time::{Duration, Instant};

/// Where a write took less, as in memory, the next one is made without the thread: to wake it would take longer.
const QUICK: Duration = Duration::from_micros(20);

/// The files of both areas.
struct Files([File; 2]);

/// A write of the node.
struct Job {
    area: usize,
    at: u64,
    bytes: Vec<u8>,
}

/// How a write ended: whether it was made and synced, and whether that was quick.
#[derive(Clone, Copy)]
struct End {
    is_made: bool,
    is_quick: bool,
}

/// Both areas, and the way to the thread.
pub struct Areas {
    files: Arc<Files>,
    jobs: Sender<Job>,
    /// Two bytes come here at the end of each write that the thread makes.
    pub ends: UnixStream,
    /// The thread writes.
    pub is_busy: bool,
    is_quick: bool,
}

impl Areas {
    /// Opens both files, and gives what they hold, synced before it is read. Another process that has them is an error.
    pub fn open(folder: &Path) -> io::Result<(Areas, [Vec<u8>; 2])> {
        fs::create_dir_all(folder)?;
        let files = [held(&folder.join("a0"))?, held(&folder.join("a1"))?];
        // The names of new files are safe once their folder is synced.
        File::open(folder)?.sync_all()?;
        let bytes = [whole(&files[0])?, whole(&files[1])?];
        let (ends, end) = UnixStream::pair()?;
        let (jobs, given) = channel();
        let files = Arc::new(Files(files));
        let theirs = Arc::clone(&files);
        thread::spawn(move || write_all(&theirs, &given, end));
        Ok((Areas { files, jobs, ends, is_busy: false, is_quick: false }, bytes))
    }

    /// Writes bytes at a place of an area, and syncs it. Whether that was done; none where the thread does it.
    pub fn write(&mut self, area: usize, at: u64, bytes: &[u8]) -> Option<bool> {
        if self.is_quick {
            let end = self.files.write(area, at, bytes);
            self.is_quick = end.is_quick;
            return Some(end.is_made);
        }
        self.is_busy = true;
        // The thread goes on as long as this process.
        let _ = self.jobs.send(Job { area, at, bytes: bytes.to_vec() });
        None
    }

    /// The thread's write has ended: whether it was made and synced.
    pub fn end(&mut self) -> io::Result<bool> {
        let mut said = [0; 2];
        (&self.ends).read_exact(&mut said)?;
        self.is_busy = false;
        self.is_quick = said[1] == 1;
        Ok(said[0] == 1)
    }
}

impl Files {
    fn write(&self, area: usize, at: u64, bytes: &[u8]) -> End {
        let begun = Instant::now();
        let made = self.0[area].write_all_at(bytes, at).and_then(|()| self.0[area].sync_data());
        let made = made.inspect_err(|error| eprintln!("area {area}: {error}"));
        End { is_made: made.is_ok(), is_quick: begun.elapsed() < QUICK }
    }
}

/// Makes one write behind the other.
fn write_all(files: &Files, given: &Receiver<Job>, mut ends: UnixStream) {
    while let Ok(job) = given.recv() {
        let end = files.write(job.area, job.at, &job.bytes);
        if ends.write_all(&[end.is_made.into(), end.is_quick.into()]).is_err() {
            return;
        }
    }
}

/// A file that no other process has locked.
fn held(path: &Path) -> io::Result<File> {
    let file = OpenOptions::new().read(true).write(true).create(true).truncate(false).open(path)?;
    file.try_lock()?;
    Ok(file)
}

/// What a file holds, synced before it is read.
fn whole(mut file: &File) -> io::Result<Vec<u8>> {
    file.sync_all()?;
    let mut bytes = Vec::new();
    file.read_to_end(&mut bytes)?;
    Ok(bytes)
}
