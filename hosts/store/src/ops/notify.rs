//! What the store notifies systemd of, where that started it as a service of type `notify`: when it serves, and when it
//! ends.
use std::io;
use std::os::linux::net::SocketAddrExt;
use std::os::unix::net::{SocketAddr, UnixDatagram};
use std::path::Path;

/// The variable in which systemd names its socket; with an `@` first it is one of the abstract names.
const SOCKET: &str = "NOTIFY_SOCKET";

/// The store serves, or waits to be let in, in the state that the text describes.
pub fn ready(status: &str) {
    notify(&format!("READY=1\nSTATUS={status}"));
}

/// It ends.
pub fn stopping() {
    notify("STOPPING=1");
}

/// Sends it, where anybody listens. (The store serves as well without.)
fn notify(state: &str) {
    if let Ok(name) = std::env::var(SOCKET) {
        let _ = send(&name, state);
    }
}

fn send(name: &str, state: &str) -> io::Result<()> {
    let address = match name.strip_prefix('@') {
        Some(name) => SocketAddr::from_abstract_name(name)?,
        None => SocketAddr::from_pathname(Path::new(name))?,
    };
    UnixDatagram::unbound()?.send_to_addr(state.as_bytes(), &address).map(|_| ())
}

#[cfg(test)]
mod tests {
    use super::*;

    #[test]
    fn it_notifies_by_either_kind_of_name() {
        let path = std::env::temp_dir().join(format!("store-notify-{}", std::process::id()));
        let _ = std::fs::remove_file(&path);
        let abstract_name = format!("store-notify-{}", std::process::id());
        let by_name = SocketAddr::from_abstract_name(&abstract_name).unwrap();
        for (socket, name) in [
            (UnixDatagram::bind(&path).unwrap(), path.display().to_string()),
            (UnixDatagram::bind_addr(&by_name).unwrap(), format!("@{abstract_name}")),
        ] {
            send(&name, "READY=1\nSTATUS=serves").unwrap();
            let mut message = [0; 64];
            let length = socket.recv(&mut message).unwrap();
            assert_eq!(&message[..length], b"READY=1\nSTATUS=serves");
        }
        let _ = std::fs::remove_file(&path);
        assert!(send("/nobody/is/there", "READY=1").is_err());
    }
}
