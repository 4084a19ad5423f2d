//! A hub's store files: both sizes, the lock, what stands beside one and what it keeps.
use raspteal::{Error, Store, StoreFile, Uuid, INDEX_MAX, SMALL_MAX, TEXT_MAX};
use std::fs;
use std::io::ErrorKind;
use std::ops::Deref;
use std::os::unix::fs::{symlink, PermissionsExt};
use std::path::{Path, PathBuf};
use std::time::Duration;

const LINE: &str = "00000000000000000000000000000001,Pad,a:b0,";

/// A folder for one test, which goes with it. It is outside the repository, where the gate takes no link.
struct Folder(PathBuf);

impl Deref for Folder {
    type Target = Path;
    fn deref(&self) -> &Path {
        &self.0
    }
}

impl Drop for Folder {
    fn drop(&mut self) {
        let _ = fs::remove_dir_all(&self.0);
    }
}

fn folder(name: &str) -> Folder {
    let folder = std::env::temp_dir().join(format!("raspteal-{name}-{}", std::process::id()));
    let _ = fs::remove_dir_all(&folder);
    fs::create_dir_all(&folder).unwrap();
    Folder(folder)
}

fn names(folder: &Path) -> Vec<String> {
    let mut names: Vec<String> =
        fs::read_dir(folder).unwrap().map(|entry| entry.unwrap().file_name().into_string().unwrap()).collect();
    names.sort();
    names
}

#[test]
fn both_sizes() {
    let folder = folder("sizes");
    for (name, store, len) in [("small", Store::small(), 131070), ("large", Store::large(), 17825792)] {
        let path = folder.join(name);
        StoreFile::create(&path, &store).unwrap();
        assert_eq!(fs::metadata(&path).unwrap().len(), len);
        assert_eq!(StoreFile::create(&path, &store).unwrap_err().kind(), ErrorKind::AlreadyExists);
        let mut file = StoreFile::open(&path).unwrap();
        assert_eq!(file.store, store);
        file.commit().unwrap();
        assert!(!names(&folder).contains(&format!("{name}.old")));
        file.store.insert(LINE).unwrap();
        file.commit().unwrap();
        assert_eq!(StoreFile::read(&path).unwrap(), file.store);
        assert_eq!(StoreFile::read(folder.join(format!("{name}.old"))).unwrap(), store);
    }
    assert_eq!(names(&folder), ["large", "large.old", "small", "small.old"]);
}

/// A small file becomes a large one, whose index starts with the small one's bytes.
#[test]
fn grown() {
    let folder = folder("grown");
    let path = folder.join("hall.store");
    StoreFile::create(&path, &Store::small()).unwrap();
    let mut file = StoreFile::open(&path).unwrap();
    file.store.insert(LINE).unwrap();
    file.commit().unwrap();
    let small = fs::read(&path).unwrap();
    file.store = file.store.grown();
    file.commit().unwrap();
    drop(file);
    let large = fs::read(&path).unwrap();
    assert_eq!((large.len(), &large[..SMALL_MAX]), (INDEX_MAX + TEXT_MAX, &small[..SMALL_MAX]));
    assert_eq!(large[INDEX_MAX..][..SMALL_MAX], small[SMALL_MAX..]);
    assert_eq!(fs::read(path.with_extension("store.old")).unwrap(), small);
    assert_eq!(StoreFile::read(&path).unwrap().found(Uuid::from_u128(1)), Ok(true));
}

/// Who opens a store waits until the one before has done; a link leads to the file, which keeps its mode.
#[test]
fn locked() {
    let folder = folder("locked");
    let (path, link) = (folder.join("hall.store"), folder.join("link"));
    StoreFile::create(&path, &Store::small()).unwrap();
    symlink("hall.store", &link).unwrap();
    fs::set_permissions(&path, fs::Permissions::from_mode(0o640)).unwrap();
    let mut first = StoreFile::open(&path).unwrap();
    std::thread::scope(|scope| {
        let second = scope.spawn(|| {
            let mut file = StoreFile::open(&link).unwrap();
            assert_eq!(file.store.found(Uuid::from_u128(1)), Ok(true));
            file.store.clear().unwrap();
            file.commit().unwrap();
        });
        std::thread::sleep(Duration::from_millis(200));
        assert!(!second.is_finished());
        assert_eq!(StoreFile::read(&link).unwrap().found(Uuid::from_u128(1)), Ok(false));
        first.store.insert(LINE).unwrap();
        first.commit().unwrap();
        drop(first);
        second.join().unwrap();
    });
    assert_eq!(StoreFile::read(&path).unwrap(), Store::small());
    assert!(fs::symlink_metadata(&link).unwrap().is_symlink());
    for name in ["hall.store", "hall.store.old"] {
        assert_eq!(fs::metadata(folder.join(name)).unwrap().permissions().mode() & 0o777, 0o640);
    }
}

/// What is no store file is left alone, and so is a file that can't be written beside.
#[test]
fn refused() {
    let folder = folder("refused");
    let path = folder.join("odd");
    assert_eq!(StoreFile::open(&path).unwrap_err().kind(), ErrorKind::NotFound);
    for len in [0, 131069, 131071, 17825791, 17825793] {
        fs::write(&path, vec![0; len]).unwrap();
        assert_eq!(StoreFile::read(&path).unwrap_err().kind(), ErrorKind::InvalidData);
        assert_eq!(StoreFile::open(&path).unwrap_err().kind(), ErrorKind::InvalidData);
    }
    assert_eq!(StoreFile::read(&*folder).unwrap_err().kind(), ErrorKind::InvalidData);
    fs::remove_file(&path).unwrap();
    for store in [Store::new(65535, 65534), Store::new(65534, 65536), Store::new(TEXT_MAX, INDEX_MAX)] {
        assert_eq!(StoreFile::create(&path, &store).unwrap_err().kind(), ErrorKind::InvalidInput);
    }
    assert!(names(&folder).is_empty());
    fs::write(&path, vec![9; 131070]).unwrap();
    let mut file = StoreFile::open(&path).unwrap();
    assert_eq!(file.store.found(Uuid::NIL), Err(Error::Unsound));
    file.store.clear().unwrap();
    fs::create_dir_all(folder.join("odd.old.new/in")).unwrap();
    assert!(file.commit().is_err());
    assert_eq!(names(&folder), ["odd", "odd.old.new"]);
    assert_eq!(fs::read(&path).unwrap(), vec![9; 131070]);
    fs::remove_dir_all(folder.join("odd.old.new")).unwrap();
    file.commit().unwrap();
    assert_eq!(fs::read(&path).unwrap(), vec![0; 131070]);
}
