//! Each value of a message type, a family, a state, a timer, a byte and a type field.

use sockdiag::any::{AnyHeader, AnyReply};
use sockdiag::constants::*;
use sockdiag::inet::nlas::NlaView as InetNla;
use sockdiag::inet::{InetResponseHeader, InetResponseView, Timer};
use sockdiag::unix::UnixResponseView;
use sockdiag::{
    DecodeError, MessageView, NlaBuffer, Parseable, PayloadView, SockDiagView, error_number,
};
use std::time::Duration;

/// A reply about a UNIX socket with the queue lengths 6 and 7.
const UNIX: [u8; 28] = [
    1, 1, 10, 0, 78, 0, 0, 0, 1, 2, 3, 4, 5, 6, 7, 8, 12, 0, 4, 0, 6, 0, 0, 0, 7, 0, 0, 0,
];

#[test]
fn each_message_type() {
    for message_type in 0..=u16::MAX {
        let [low, high] = message_type.to_le_bytes();
        let bytes = [&[44, 0, 0, 0, low, high, 2, 0, 7, 0, 0, 0, 9, 0, 0, 0][..], &UNIX].concat();
        let found = MessageView::parse(&bytes).map(|message| message.payload);
        match (message_type, found) {
            (1, Ok(PayloadView::Noop)) => {}
            (2, Ok(PayloadView::Error(bytes))) | (3, Ok(PayloadView::Done(bytes))) => {
                assert_eq!(error_number(bytes), Some(i32::from_le_bytes([1, 1, 10, 0])));
            }
            (4, Ok(PayloadView::Overrun(bytes))) => assert_eq!(bytes, UNIX),
            (20, Ok(PayloadView::InnerMessage(SockDiagView::UnixResponse(_)))) => {}
            (other, Err(error)) if ![1, 2, 3, 4, 20].contains(&other) => {
                assert_eq!(error, DecodeError::UnknownMessageType { message_type });
            }
            other => panic!("{other:?}"),
        }
    }
}

#[test]
fn each_family() {
    for family in 0..=u8::MAX {
        // No attributes, so that only the header can be invalid.
        let length = match family {
            AF_UNIX | AF_PACKET | 44 => 16,
            AF_NETLINK => 28,
            40 => 32,
            _ => 72,
        };
        let payload = vec![family; length];
        let any = AnyReply::parse(&payload, 20).map(|reply| reply.header().clone());
        let of_port = SockDiagView::parse(&payload, 20);
        let is_right = match (family, &any) {
            (AF_UNIX, Ok(AnyHeader::Unix(_))) | (2 | 10, Ok(AnyHeader::Inet(_))) => true,
            (16, Ok(AnyHeader::Netlink(_))) | (17, Ok(AnyHeader::Packet(_))) => true,
            (40, Ok(AnyHeader::Vsock(_))) | (44, Ok(AnyHeader::Xdp(_))) => true,
            (_, Err(error)) => *error == DecodeError::UnknownFamily { family },
            _ => false,
        };
        assert!(is_right, "{family}: {any:?}");
        assert_eq!(of_port.is_ok(), [1, 2, 10].contains(&family), "{family}");
        for bytes in [&payload[..0], &payload[..1]] {
            let error = DecodeError::MessageTooShort { got: bytes.len() };
            assert_eq!(AnyReply::parse(bytes, 20).err(), Some(error));
        }
    }
}

#[test]
fn each_state_of_a_unix_socket() {
    for state in 0..=u8::MAX {
        let mut bytes = UNIX;
        bytes[2] = state;
        let reply = UnixResponseView::parse(&bytes).unwrap();
        let listening = (state == TCP_LISTEN).then_some((6, 7));
        let other = (state != TCP_LISTEN).then_some((6, 7));
        let numbers = reply.number_of_pending_connection();
        assert_eq!(numbers.zip(reply.max_number_of_pending_connection()), listening);
        assert_eq!(reply.receive_queue_size().zip(reply.send_queue_size()), other);
    }
}

#[test]
fn each_timer() {
    for timer in 0..=u8::MAX {
        let mut bytes = [2; 72];
        (bytes[2], bytes[3]) = (timer, 9);
        bytes[52..56].copy_from_slice(&0xfffffffeu32.to_le_bytes());
        let time = Duration::from_millis(0xfffffffe);
        let expected = match timer {
            1 => Some(Timer::Retransmit(time, 9)),
            2 => Some(Timer::KeepAlive(time)),
            3 => Some(Timer::TimeWait),
            4 => Some(Timer::Probe(time)),
            _ => None,
        };
        assert_eq!(InetResponseHeader::parse(&bytes[..]).unwrap().timer, expected);
    }
}

#[test]
fn each_value_of_a_byte() {
    for byte in 0..=u8::MAX {
        let mut bytes = vec![2; 72];
        for kind in [5, 6, 8, 10, 11] {
            bytes.extend([5, 0, kind, 0, byte, 0, 0, 0]);
        }
        let reply = InetResponseView::parse(&bytes).unwrap();
        let expected = [
            InetNla::Tos(byte),
            InetNla::Tc(byte),
            InetNla::Shutdown(byte),
            InetNla::Protocol(byte),
            InetNla::SkV6Only(byte != 0),
        ];
        assert!(reply.attributes().eq(expected), "{byte}");
    }
}

#[test]
fn each_type_field() {
    for type_word in 0..=u16::MAX {
        let [low, high] = type_word.to_le_bytes();
        let bytes = [5, 0, low, high, 7];
        let nla = NlaBuffer::new_checked(&bytes).unwrap();
        let found = (nla.type_word(), nla.kind(), nla.value(), nla.length());
        assert_eq!(found, (type_word, type_word % 0x4000, &[7][..], 5));
        let flags = (nla.nested_flag(), nla.network_byte_order_flag());
        assert_eq!(flags, (type_word >> 15 == 1, type_word >> 14 & 1 == 1));
    }
}
