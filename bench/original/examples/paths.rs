//! Prints the paths of the UNIX sockets in the datagram on standard input, one per line. The page
//! docs/MIGRATING.md compares it with the same program over the port.

use netlink_packet_core::{DecodeError, NetlinkMessage, NetlinkPayload};
use netlink_packet_sock_diag::SockDiagMessage;
use netlink_packet_sock_diag::unix::UnixResponse;
use netlink_packet_sock_diag::unix::nlas::{Nla, UnixDiagName};
use std::os::unix::ffi::OsStrExt;

/// Appends the paths in the replies of a datagram, and returns whether it has an `NLMSG_DONE`.
pub fn add_paths(datagram: &[u8], paths: &mut Vec<Vec<u8>>) -> Result<bool, DecodeError> {
    let mut offset = 0;
    while offset < datagram.len() {
        let message = NetlinkMessage::<SockDiagMessage>::deserialize(&datagram[offset..])?;
        match message.payload {
            NetlinkPayload::InnerMessage(SockDiagMessage::UnixResponse(reply)) => {
                add_path(&reply, paths);
            }
            NetlinkPayload::Done(_) => return Ok(true),
            _ => {}
        }
        offset += (message.header.length as usize + 3) & !3;
    }
    Ok(false)
}

fn add_path(reply: &UnixResponse, paths: &mut Vec<Vec<u8>>) {
    for nla in &reply.nlas {
        if let Nla::Name(UnixDiagName::Pathname(path)) = nla {
            paths.push(path.as_bytes().to_vec());
        }
    }
}

fn main() -> std::io::Result<()> {
    let mut datagram = Vec::new();
    std::io::Read::read_to_end(&mut std::io::stdin(), &mut datagram)?;
    let mut paths = Vec::new();
    match add_paths(&datagram, &mut paths) {
        Ok(is_complete) => eprintln!("{} paths, complete: {is_complete}", paths.len()),
        Err(error) => eprintln!("the datagram is invalid: {error}"),
    }
    for path in paths {
        println!("{}", String::from_utf8_lossy(&path));
    }
    Ok(())
}
