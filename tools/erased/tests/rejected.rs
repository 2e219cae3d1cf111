//! Replies of which one attribute is rejected: an [`AnyReply`] has the error, and the header and
//! the other attributes as the reply without the rejected one.

use sockdiag::RecordName::{self, LegacyMemInfo, MemInfo, TcpInfo, UnixMemInfo, Vfs};
use sockdiag::any::{AnyReply, InfoFormat};
use sockdiag::{DecodeError, SockDiagView};

/// The header of a reply about a UNIX socket, and of one about an IPv4 socket.
const UNIX: &[u8] = &[1, 1, 10, 0, 78, 0, 0, 0, 1, 2, 3, 4, 5, 6, 7, 8];
const INET: &[u8] = &[2; 72];

/// Attributes that are accepted in both: two directions that are shut down, and an unknown kind.
const OTHERS: &[u8] = b"\x05\0\x06\0\x03\0\0\0\x05\0\x08\0\x02\0\0\0\x06\0\x63\x80\x07\x08\0\0";

const fn too_small(which: RecordName, got: usize, need: usize) -> DecodeError {
    DecodeError::BufferTooSmall { which, got, need }
}

const fn wrong_length(kind: u16, got: usize, need: usize) -> DecodeError {
    DecodeError::WrongLength { kind: Some(kind), got, need }
}

/// A kind, a value that is rejected, and the error.
type Row = (u16, &'static [u8], DecodeError);

const UNIX_ROWS: [Row; 9] = [
    (0, b"", DecodeError::NameEmpty),
    (0, b"/a", DecodeError::NameWithoutEnd),
    (0, b"/\0\0", DecodeError::NameInnerZero { index: 1 }),
    (1, &[1; 7], too_small(Vfs, 7, 8)),
    (2, &[2; 5], wrong_length(2, 5, 4)),
    (3, &[3; 6], DecodeError::NotMultipleOfFour { got: 6 }),
    (4, &[4; 12], wrong_length(4, 12, 8)),
    (5, &[5; 32], too_small(UnixMemInfo, 32, 36)),
    (6, &[6; 4], wrong_length(6, 4, 1)),
];

const INET_ROWS: [Row; 11] = [
    (1, &[1; 12], too_small(LegacyMemInfo, 12, 16)),
    (2, &[2; 224], too_small(TcpInfo, 224, 232)),
    (4, &[0xff, 0], DecodeError::NotUtf8),
    (5, &[5; 4], wrong_length(5, 4, 1)),
    (6, &[], wrong_length(6, 0, 1)),
    (7, &[7; 24], too_small(MemInfo, 24, 28)),
    (8, &[8; 2], wrong_length(8, 2, 1)),
    (10, &[10; 4], wrong_length(10, 4, 1)),
    (11, &[1; 3], wrong_length(11, 3, 1)),
    (15, &[15; 8], wrong_length(15, 8, 4)),
    (17, &[17; 3], wrong_length(17, 3, 4)),
];

/// Returns the header, the attribute of a row with both flag bits, and the other attributes.
fn reply(header: &[u8], (kind, value, _): Row) -> Vec<u8> {
    let [low, high] = (kind | 0xc000).to_le_bytes();
    let mut bytes = [header, &[4 + value.len() as u8, 0, low, high], value].concat();
    bytes.resize(bytes.len().next_multiple_of(4), 0);
    [&bytes, OTHERS].concat()
}

/// Returns the `Debug` output of an attribute and of what it says.
fn text(item: impl std::fmt::Debug) -> String {
    format!("{item:?}")
}

/// Asserts that a row hides nothing else of a reply.
fn assert_row(header: &[u8], row: Row) {
    let (kind, value, error) = row;
    let (bytes, without) = (reply(header, row), [header, OTHERS].concat());
    assert_eq!(SockDiagView::parse(&bytes, 20), Err(error));
    assert!(SockDiagView::parse(&without, 20).is_ok());
    let (reply, others) = (AnyReply::parse(&bytes, 20), AnyReply::parse(&without, 20));
    let (reply, others) = (reply.unwrap(), others.unwrap());
    assert_eq!(text(reply.header()), text(others.header()));
    let mut attributes = reply.attributes(InfoFormat::Unknown);
    let rejected = attributes.next().unwrap().unwrap_err();
    assert_eq!(rejected.error(), error);
    let found = rejected.attribute().map(|nla| (nla.kind(), nla.value()));
    assert_eq!(found, Some((kind, value)));
    let others = others.attributes(InfoFormat::Unknown).map(|nla| text(nla.unwrap()));
    assert!(attributes.map(|nla| text(nla.unwrap())).eq(others), "{kind}: {value:?}");
    assert!(AnyReply::parse(&header[..header.len() - 1], 20).is_err());
}

#[test]
fn one_rejected_attribute_of_each_kind() {
    UNIX_ROWS.into_iter().for_each(|row| assert_row(UNIX, row));
    INET_ROWS.into_iter().for_each(|row| assert_row(INET, row));
}

#[test]
fn all_rejected_attributes_and_a_framing_error() {
    let attributes: Vec<u8> = UNIX_ROWS.iter().flat_map(|row| reply(&[], *row)).collect();
    let bytes = [UNIX, &attributes, &[200, 0, 2, 0, 1]].concat();
    let reply = AnyReply::parse(&bytes, 20).unwrap();
    let errors = reply.attributes(InfoFormat::Unknown).filter_map(Result::err);
    let framing = DecodeError::AttributeLengthPast { length: 200, left: 5 };
    let expected = UNIX_ROWS.map(|(kind, _, error)| (Some(kind), error));
    let expected = expected.into_iter().chain([(None, framing)]);
    assert!(errors.map(|it| (it.attribute().map(|nla| nla.kind()), it.error())).eq(expected));
    assert_eq!(reply.attributes(InfoFormat::Unknown).count(), 4 * UNIX_ROWS.len() + 1);
}
