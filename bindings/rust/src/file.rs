//! A hub's store file.
use crate::ffi::lock::try_lock;
use crate::{Store, INDEX_MAX, SMALL_MAX, TEXT_MAX};
use std::ffi::OsString;
use std::fs::{self, File, Metadata, OpenOptions};
use std::io::{self, Error, ErrorKind, Write};
use std::os::unix::fs::{fchown, MetadataExt};
use std::path::{Path, PathBuf};
use std::time::{Duration, Instant};

/// How long a change waits for the one before it, as the script `hub` does.
const WAIT: Duration = Duration::from_secs(5);

/// A hub's store file, held for a change: the index and then the text, 65535 bytes each, or 1048576 and 16777216.
///
/// It keeps the rules of the script `hub`, so that both may be at work on one file: it holds the lock of the file's
/// folder as long as it lives, and a change puts a new file in place as a whole, by a rename, and keeps the former one
/// as FILE.old. A link is followed.
///
/// ```
/// use raspteal::{Store, StoreFile, Uuid};
///
/// # let folder = std::env::temp_dir().join(format!("raspteal-doc-{}", std::process::id()));
/// # std::fs::create_dir_all(&folder)?;
/// let path = folder.join("hall.store");
/// StoreFile::create(&path, &Store::small())?;
///
/// let mut file = StoreFile::open(&path)?;
/// file.store.insert("00000000000000000000000000000001,Pad,a:b0,")?;
/// file.store = file.store.grown();
/// file.commit()?;
///
/// assert!(StoreFile::read(&path)?.found(Uuid::from_u128(1))?);
/// # std::fs::remove_dir_all(&folder)?;
/// # Ok::<(), Box<dyn std::error::Error>>(())
/// ```
#[derive(Debug)]
pub struct StoreFile {
    /// The store, as it was read; [`StoreFile::commit`] writes it.
    pub store: Store,
    former: Vec<u8>,
    path: PathBuf,
    lock: File,
}

impl StoreFile {
    /// Reads a store file for look-ups, without a lock: a change puts another file in its place and leaves this one as it
    /// is. `InvalidData` where it has not the bytes of a store file; whether it is a sound store the calls say.
    pub fn read(path: impl AsRef<Path>) -> io::Result<Store> {
        let data = whole(path.as_ref())?;
        Ok(store_of(&data))
    }

    /// Waits for the lock of the file's folder, at most five seconds, and reads the file. `WouldBlock` where another has
    /// the lock all that time; the rest as [`StoreFile::read`].
    pub fn open(path: impl AsRef<Path>) -> io::Result<StoreFile> {
        let path = fs::canonicalize(path)?;
        let lock = locked(&path)?;
        let former = whole(&path)?;
        Ok(StoreFile { store: store_of(&former), former, path, lock })
    }

    /// Writes a store where there is no file yet, under the lock of the folder. `AlreadyExists` where there is one,
    /// `InvalidInput` where the buffers have not the lengths of a store file.
    pub fn create(path: impl AsRef<Path>, store: &Store) -> io::Result<()> {
        let (path, data) = (path.as_ref(), data_of(store)?);
        let lock = locked(path)?;
        if fs::symlink_metadata(path).is_ok() {
            return Err(ErrorKind::AlreadyExists.into());
        }
        place(path, &data, None)?;
        lock.sync_all()
    }

    /// Puts the store in the place of the file, which is kept as FILE.old; nothing is written where no byte has changed.
    /// Mode and group stay, and the owner where this process may give it. On an error the file is as it was.
    pub fn commit(&mut self) -> io::Result<()> {
        let data = data_of(&self.store)?;
        if data == self.former {
            return Ok(());
        }
        let like = fs::metadata(&self.path)?;
        let new = beside(&self.path, ".new");
        written(&new, &data, Some(&like))?;
        let placed =
            place(&beside(&self.path, ".old"), &self.former, Some(&like)).and_then(|()| fs::rename(&new, &self.path));
        if placed.is_err() {
            let _ = fs::remove_file(&new);
        }
        placed?;
        self.former = data;
        self.lock.sync_all()
    }
}

/// The lengths of index and text in a file of that length.
fn lengths(file: usize) -> Option<(usize, usize)> {
    [(SMALL_MAX, SMALL_MAX), (INDEX_MAX, TEXT_MAX)].into_iter().find(|(index, text)| index + text == file)
}

fn store_of(data: &[u8]) -> Store {
    let (index, text) = data.split_at(lengths(data.len()).map_or(0, |(index, _)| index));
    Store::over(index.to_vec(), text.to_vec())
}

fn data_of(store: &Store) -> io::Result<Vec<u8>> {
    let data = [store.index(), store.text()].concat();
    match lengths(data.len()) {
        Some((index, _)) if index == store.index().len() => Ok(data),
        _ => Err(Error::new(ErrorKind::InvalidInput, "the store has not the lengths of a store file")),
    }
}

/// The bytes of a store file.
fn whole(path: &Path) -> io::Result<Vec<u8>> {
    let about = fs::metadata(path)?;
    if !about.is_file() || lengths(about.len() as usize).is_none() {
        return Err(Error::new(ErrorKind::InvalidData, "not the bytes of a store file"));
    }
    let data = fs::read(path)?;
    match lengths(data.len()) {
        Some(_) => Ok(data),
        None => Err(Error::new(ErrorKind::InvalidData, "not the bytes of a store file")),
    }
}

fn beside(path: &Path, ending: &str) -> PathBuf {
    let mut name = OsString::from(path);
    name.push(ending);
    name.into()
}

/// The folder of a file, locked.
fn locked(path: &Path) -> io::Result<File> {
    let folder = match path.parent() {
        Some(folder) if folder != Path::new("") => folder,
        _ => Path::new("."),
    };
    let (lock, until) = (File::open(folder)?, Instant::now() + WAIT);
    loop {
        match try_lock(&lock) {
            Err(busy) if busy.kind() == ErrorKind::WouldBlock && Instant::now() < until => {
                std::thread::sleep(Duration::from_millis(50))
            }
            told => return told.map(|()| lock),
        }
    }
}

/// Writes a file anew, with another one's mode and owner, and syncs it. On an error there is none.
fn written(path: &Path, data: &[u8], like: Option<&Metadata>) -> io::Result<()> {
    let _ = fs::remove_file(path);
    let mut file = OpenOptions::new().write(true).create_new(true).open(path)?;
    let told = (|| {
        if let Some(like) = like {
            // who may not give the owner gives the group, if he may
            fchown(&file, Some(like.uid()), Some(like.gid())).or_else(|_| fchown(&file, None, Some(like.gid()))).ok();
            file.set_permissions(like.permissions())?;
        }
        file.write_all(data)?;
        file.sync_all()
    })();
    if told.is_err() {
        let _ = fs::remove_file(path);
    }
    told
}

/// Writes a file beside its place, and puts it there.
fn place(path: &Path, data: &[u8], like: Option<&Metadata>) -> io::Result<()> {
    let new = beside(path, ".new");
    written(&new, data, like)?;
    fs::rename(&new, path).inspect_err(|_| drop(fs::remove_file(&new)))
}
