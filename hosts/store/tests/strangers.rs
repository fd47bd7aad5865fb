//! Whoever connects to the peers' port and is no peer is reported, each kind for itself.
mod common;
use common::{Places, wait};
use std::fs;
use std::io::{self, Read, Write};
use std::net::TcpStream;
use std::os::unix::fs::PermissionsExt;
use store::peer::sealed::{Hello, Key, MAGIC, call};

/// What is written, where nothing is answered.
struct Caught(Vec<u8>);

impl Write for Caught {
    fn write(&mut self, bytes: &[u8]) -> io::Result<usize> {
        self.0.write(bytes)
    }

    fn flush(&mut self) -> io::Result<()> {
        Ok(())
    }
}

impl Read for Caught {
    fn read(&mut self, _: &mut [u8]) -> io::Result<usize> {
        Ok(0)
    }
}

#[test]
fn a_scanner_does_not_hide_another_key() {
    let places = Places::new("strangers");
    let key = |name: &str, text: &str| {
        let path = places.folder.join(name);
        fs::write(&path, text).unwrap();
        fs::set_permissions(&path, fs::Permissions::from_mode(0o600)).unwrap();
        path.display().to_string()
    };
    let store = places.start_with(0, &["--peer-key", &key("key", "a-key-that-nobody-can-guess")]);
    let scan =
        || TcpStream::connect(places.peer(0)).unwrap().write_all(b"GET / HTTP/1.1\r\nHost: nobody\r\n\r\n").unwrap();
    let scanned = "WARN store 0: a connection from 127.0.0.1:";
    scan();
    wait("the first line", || {
        store.logged().contains("to the peers' port is not from a replica that has this one as its peer")
    });
    (0..20).for_each(|_| scan());
    // Replica 1 begins as it should, and what it then says isn't made by this key.
    let mut hello = Caught(Vec::new());
    let _ = call(&mut hello, &Key::none(), &Hello::new(MAGIC, [3, 1, 0]).unwrap());
    let mut other = TcpStream::connect(places.peer(0)).unwrap();
    other.write_all(&hello.0).unwrap();
    other.read_exact(&mut [0; 16]).unwrap();
    other.write_all(&[0xff; 64]).unwrap();
    store.await_logged("to the peers' port has another key than this one (--peer-key)");
    assert_eq!(store.logged().matches(scanned).count(), 2, "{}", store.logged());
}
