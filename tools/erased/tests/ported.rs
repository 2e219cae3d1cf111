//! The program of docs/MIGRATING.md, bench/original/examples/paths.rs, over this package: the
//! imports and the line marked `here` differ.
#![cfg(feature = "alloc")]

use sockdiag::SockDiagMessage;
use sockdiag::unix::UnixResponse;
use sockdiag::unix::nlas::{Nla, UnixDiagName};
use sockdiag::{DecodeError, NetlinkMessage, NetlinkPayload};

/// Appends the paths in the replies of a datagram, and returns whether it has an `NLMSG_DONE`.
pub fn add_paths(datagram: &[u8], paths: &mut Vec<Vec<u8>>) -> Result<bool, DecodeError> {
    let mut offset = 0;
    while offset < datagram.len() {
        let message = NetlinkMessage::<SockDiagMessage>::deserialize(&datagram[offset..])?;
        match message.payload {
            NetlinkPayload::InnerMessage(SockDiagMessage::UnixResponse(reply)) => {
                add_path(&reply, paths);
            }
            NetlinkPayload::Done(_) => return Ok(true),
            _ => {}
        }
        offset += (message.header.length as usize + 3) & !3;
    }
    Ok(false)
}

fn add_path(reply: &UnixResponse, paths: &mut Vec<Vec<u8>>) {
    for nla in &reply.nlas {
        if let Nla::Name(UnixDiagName::Pathname(path)) = nla {
            paths.push(path.clone()); // here: there the path is an `OsString`
        }
    }
}

#[test]
fn paths_up_to_the_end_of_the_dump() {
    let reply = b"\x27\0\0\0\x14\0\x02\0\x01\0\0\0\x02\0\0\0\
        \x01\x01\x0a\0\x0e\x4f\0\0\xa0\x02\0\0\0\0\0\0\x07\0\0\0/a\0\0";
    let done = b"\x14\0\0\0\x03\0\x02\0\x01\0\0\0\x02\0\0\0\0\0\0\0";
    let mut paths = Vec::new();
    assert_eq!(add_paths(reply, &mut paths), Ok(false));
    assert_eq!(add_paths(&[&reply[..], done, reply].concat(), &mut paths), Ok(true));
    assert_eq!(paths, [b"/a", b"/a"]);
    let error = add_paths(&reply[..38], &mut paths).unwrap_err();
    assert_eq!(error, DecodeError::EnvelopeLengthPast { length: 39, got: 38 });
}
