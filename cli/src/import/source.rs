//! The inputs of an import, by names under which a store knows them again.

use super::digest::Digest;
use super::store::Source;
use crate::input;
use crate::told;
use std::ffi::{OsStr, OsString};
use std::fs::{self, File};
use std::io::{self, Chain, Cursor, ErrorKind, Read, Seek};
use std::os::unix::ffi::OsStrExt;

/// What is read: bytes that were read before, and then a file.
pub type Input = Chain<Cursor<Vec<u8>>, File>;

/// By so many bytes at its front an input is known that can be read only once.
const FRONT: usize = 65_536;

/// An input, from its front on.
pub fn open(word: &OsStr) -> io::Result<Input> {
    Ok(Cursor::new(vec![]).chain(input::open(word)?))
}

/// An input, with how a store knows it.
pub fn known(word: &OsStr) -> io::Result<(Source, Input)> {
    let mut file = input::open(word)?;
    let regular = word.as_bytes() != b"-" && file.metadata()?.is_file();
    if regular {
        let (bytes, digest) = whole(&mut file)?;
        file.rewind()?;
        let source = Source { name: told::visible(word.as_bytes()), bytes: Some(bytes), digest: Some(digest) };
        return Ok((source, Cursor::new(vec![]).chain(file)));
    }
    let mut front = vec![];
    (&mut file).take(FRONT as u64).read_to_end(&mut front)?;
    let mut digest = Digest::default();
    let source = Source { name: format!("-:{:016x}", digest.add(&front).end()), bytes: None, digest: None };
    Ok((source, Cursor::new(front).chain(file)))
}

/// How many bytes a file has, and their digest.
fn whole(file: &mut File) -> io::Result<(u64, u64)> {
    let (mut room, mut digest, mut bytes) = (vec![0; FRONT], Digest::default(), 0);
    loop {
        match file.read(&mut room) {
            Ok(0) => return Ok((bytes, digest.end())),
            Ok(more) => {
                digest.add(&room[..more]);
                bytes += more as u64;
            }
            Err(error) if error.kind() == ErrorKind::Interrupted => {}
            Err(error) => return Err(error),
        }
    }
}

/// How many bytes all inputs have together, if they are all regular files.
pub fn size(words: &[OsString]) -> Option<u64> {
    let size = |word: &OsString| fs::metadata(word).ok().filter(|file| file.is_file() && word != "-").map(|file| file.len());
    words.iter().map(size).sum()
}

#[cfg(test)]
mod tests {
    use super::*;
    use std::process::Command;
    use std::thread;

    fn digest(bytes: &[u8]) -> u64 {
        Digest::default().add(bytes).end()
    }

    fn read(mut input: Input) -> Vec<u8> {
        let mut bytes = vec![];
        input.read_to_end(&mut bytes).unwrap();
        bytes
    }

    #[test]
    fn a_file_is_known_by_its_name_and_a_pipe_by_its_front() {
        let folder = std::env::temp_dir().join(format!("menkhodur-source-{}", std::process::id()));
        fs::create_dir_all(&folder).unwrap();
        let (file, pipe) = (folder.join("file"), folder.join("pipe"));
        let text: Vec<u8> = (0..70_000_u32).map(|index| (index * index >> 7) as u8).collect();
        for length in [0, 5, FRONT - 1, FRONT, FRONT + 1, text.len()] {
            let bytes = &text[..length];
            fs::write(&file, bytes).unwrap();
            let (source, input) = known(file.as_os_str()).unwrap();
            let owed = Source { name: file.to_str().unwrap().to_string(), bytes: Some(length as u64), digest: Some(digest(bytes)) };
            assert_eq!((source, read(input).as_slice()), (owed, bytes));
            assert_eq!(read(open(file.as_os_str()).unwrap()), bytes);
            assert_eq!(size(&[file.clone().into(), file.clone().into()]), Some(2 * length as u64));
            let _ = fs::remove_file(&pipe);
            assert!(Command::new("mkfifo").arg(&pipe).status().unwrap().success());
            let (to, fed) = (pipe.clone(), bytes.to_vec());
            let feeder = thread::spawn(move || fs::write(to, fed).unwrap());
            let (source, input) = known(pipe.as_os_str()).unwrap();
            let name = format!("-:{:016x}", digest(&bytes[..length.min(FRONT)]));
            assert_eq!((source, read(input).as_slice()), (Source { name, bytes: None, digest: None }, bytes));
            feeder.join().unwrap();
            assert_eq!(size(&[pipe.clone().into()]), None);
        }
        fs::remove_dir_all(&folder).unwrap();
    }
}
