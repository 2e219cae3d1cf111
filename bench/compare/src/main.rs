//! Times this port and the crate `netlink-packet-sock-diag` on the same replies. Prints the time of
//! the port divided by the time of the crate, as a Markdown table.

use std::hint::black_box;
use std::time::{Duration, Instant};

use netlink_packet_core::{Emitable, Parseable};
use netlink_packet_sock_diag::inet::InetResponse;
use netlink_packet_sock_diag::unix::UnixResponse;

/// Least duration of a sample.
const SAMPLE: Duration = Duration::from_micros(500);
/// Number of samples of each subject in a round. The table is computed from the least sample of
/// all rounds.
const SAMPLES: usize = 15;
const ROUNDS: usize = 3;

// The functions of bench/replies. A slice is passed as a pointer and a length.
type Read = unsafe extern "C" fn(*const u8, usize) -> usize;
type Rewrite = unsafe extern "C" fn(*const u8, usize, *mut u8, usize, u64) -> usize;

unsafe extern "C" {
    fn read_unix_reply(_: *const u8, _: usize) -> usize;
    fn read_inet_reply(_: *const u8, _: usize) -> usize;
    fn rewrite_unix_reply(_: *const u8, _: usize, _: *mut u8, _: usize, _: u64) -> usize;
    fn rewrite_inet_reply(_: *const u8, _: usize, _: *mut u8, _: usize, _: u64) -> usize;
    fn canonical_unix_reply(_: *const u8, _: usize) -> usize;
    fn canonical_inet_reply(_: *const u8, _: usize) -> usize;
}

/// The port's functions for a family: to parse a reply, to serialize it, and to make its canonical
/// bytes.
#[derive(Clone, Copy)]
struct Port(Read, Rewrite, Read);

const UNIX: Port = Port(read_unix_reply, rewrite_unix_reply, canonical_unix_reply);
const INET: Port = Port(read_inet_reply, rewrite_inet_reply, canonical_inet_reply);

/// Parses the reply or makes its canonical bytes, and returns the number of attributes or bytes.
fn call(function: Read, bytes: &[u8]) -> usize {
    // SAFETY: pointer and length belong to a slice that is borrowed during the call.
    unsafe { function(bytes.as_ptr(), bytes.len()) }
}

/// Parses the reply, serializes it `again + 1` times, and returns its length in bytes.
fn rewrite(function: Rewrite, bytes: &[u8], buffer: &mut [u8], again: u64) -> usize {
    let (out, room) = (buffer.as_mut_ptr(), buffer.len());
    // SAFETY: as above. The slices do not overlap, since one is borrowed mutably.
    unsafe { function(bytes.as_ptr(), bytes.len(), out, room, again) }
}

/// Name of a reply in the table and its bytes. A reply without a name only counts for the means.
type Row = (&'static str, Vec<u8>);
/// Type and value of an attribute.
type Attribute<'a> = (u16, &'a [u8]);

/// Returns the bytes of a reply: a header, and attributes padded with zeros to a multiple of four.
fn reply(header: &[u8], attributes: &[Attribute]) -> Vec<u8> {
    let mut bytes = header.to_vec();
    for (kind, value) in attributes {
        bytes.extend((4 + value.len() as u16).to_le_bytes());
        bytes.extend(kind.to_le_bytes());
        bytes.extend(*value);
        bytes.resize(bytes.len().next_multiple_of(4), 0);
    }
    bytes
}

/// Returns one reply for each number of attributes: none, the first, the first two and so on.
fn of_each_count(header: &[u8], attributes: &[Attribute]) -> Vec<Row> {
    let name = |count| match count {
        0 => "no attributes",
        3 => "3 attributes",
        7 => "7 attributes",
        11 => "11 attributes",
        _ => "",
    };
    let of = |count| (name(count), reply(header, &attributes[..count]));
    (0..=attributes.len()).map(of).collect()
}

fn unix_replies() -> Vec<Row> {
    // Family, type, state, padding, inode, cookie.
    let header = [1, 1, 10, 0, 1, 2, 0, 0, 3, 4, 0, 0, 0, 0, 0, 0];
    // Each type from UNIX_DIAG_NAME to UNIX_DIAG_UID, and three that the kernel does not define.
    let all: [Attribute; 11] = [
        (0, b"/run/user/1000/bus\0"),
        (1, &[1, 2, 3, 4, 5, 6, 7, 8]),
        (2, &[9, 0, 0, 0]),
        (3, &[1, 0, 0, 0, 2, 0, 0, 0, 3, 0, 0, 0]),
        (4, &[0, 0, 0, 0, 128, 0, 0, 0]),
        (5, &[5; 36]),
        (6, &[0]),
        (7, &[232, 3, 0, 0]),
        (9, &[1, 2, 3, 4, 5]),
        (10, &[7]),
        (11, &[8; 16]),
    ];
    let of = |attributes: &[Attribute]| reply(&header, attributes);
    let abstract_name: Attribute = (0, b"\0a name of forty-five bytes, the zero with it");
    let path = |len: usize| [vec![b'x'; len - 1], vec![0]].concat();
    let numbers: Vec<u8> = (0..4_000).map(|at| at as u8).collect();
    let mut replies = of_each_count(&header, &all);
    replies.extend([
        ("", of(&[all[0], all[4], all[6]])),
        ("", of(&[abstract_name, all[4], all[6]])),
        ("a path of 107 bytes", of(&[(0, &path(107))])),
        ("a path of 65,531 bytes", of(&[(0, &path(65_531))])),
        ("1,000 pending connections", of(&[(3, &numbers)])),
        ("", of(&[(99, &numbers)])),
        ("100 peers", of(&[all[2]; 100])),
        ("", of(&[all[2]; 1_000])),
    ]);
    replies
}

fn inet_replies() -> Vec<Row> {
    // Family, state, timer, retransmits, ports; at 8 and 24 the addresses; at 40 interface, cookie,
    // expiry, queues, user id, inode.
    let mut header = [0; 72];
    header[..12].copy_from_slice(&[2, 1, 2, 0, 0xeb, 0x14, 1, 0xbb, 192, 0, 2, 60]);
    header[24..28].copy_from_slice(&[198, 51, 100, 131]);
    header[40..].copy_from_slice(&[3; 32]);
    let tcp_info: Vec<u8> = (0..232).collect();
    // Attributes that a kernel sends for a connection, with `TcpInfo` and the name of the
    // congestion control algorithm.
    let all: [Attribute; 11] = [
        (8, &[0]),
        (5, &[0x10]),
        (15, &[0; 4]),
        (17, &[6, 0, 0, 0]),
        (21, &[1, 0, 0, 0, 0, 0, 0, 0]),
        (22, &[0x52, 0]),
        (1, &[0; 16]),
        (7, &[3; 36]),
        (2, &tcp_info),
        (4, b"cubic\0"),
        (16, &[9; 16]),
    ];
    let of = |attributes: &[Attribute]| reply(&header, attributes);
    let mut replies = of_each_count(&header, &all);
    replies.extend([
        ("only a `TcpInfo`", of(&[all[8]])),
        ("", of(&[all[9]])),
        ("", of(&[all[7]])),
        ("100 types of service", of(&[all[1]; 100])),
        ("", of(&[all[1]; 1_000])),
    ]);
    replies
}

/// Least times in nanoseconds: the crate parses, the port parses, the crate serializes, the port
/// serializes, the crate makes canonical bytes, the port makes them.
type Times = [f64; 6];

/// A closure to time. Its argument is the number of repetitions.
type Subject<'a> = Box<dyn FnMut(u64) + 'a>;

fn repeated<'a>(mut work: impl FnMut() + 'a) -> Subject<'a> {
    Box::new(move |times| (0..times).for_each(|_| work()))
}

fn took(subject: &mut Subject, times: u64) -> Duration {
    let start = Instant::now();
    subject(times);
    start.elapsed()
}

/// Takes samples of the subjects in turn, so that other load disturbs all of them alike.
fn sample(mut subjects: [Subject; 6], least: &mut Times) {
    let times = subjects.each_mut().map(|subject| {
        let mut times = 1;
        while took(subject, times) < SAMPLE {
            times *= 2;
        }
        times
    });
    for _ in 0..SAMPLES {
        for (at, subject) in subjects.iter_mut().enumerate() {
            let each = took(subject, times[at]).as_nanos() as f64 / times[at] as f64;
            least[at] = least[at].min(each);
        }
    }
}

/// Times one reply, after checking that the crate and the port serialize it to the same bytes.
fn time<T: Parseable<[u8]> + Emitable>(port: Port, bytes: &[u8], least: &mut Times) {
    let Port(reader, writer, canonical) = port;
    let parse = |bytes| T::parse(bytes).expect("netlink-packet-sock-diag parses the reply");
    let emitted = |value: &T| {
        let mut form = vec![0; value.buffer_len()];
        value.emit(&mut form);
        form
    };
    let value = parse(bytes);
    let mut written = emitted(&value);
    let mut buffer = vec![0xff; written.len()];
    assert_eq!(rewrite(writer, bytes, &mut buffer, 0), written.len());
    assert_eq!(call(canonical, bytes), written.len());
    assert!(buffer == written, "the port serializes to other bytes");
    let subjects = [
        repeated(|| drop(black_box(parse(black_box(bytes))))),
        repeated(|| _ = black_box(call(reader, black_box(bytes)))),
        repeated(|| {
            let value = black_box(&value);
            let len = value.buffer_len();
            value.emit(&mut written[..len]);
            black_box(&written);
        }),
        Box::new(|times| _ = black_box(rewrite(writer, bytes, &mut buffer, times - 1))),
        repeated(|| drop(black_box(emitted(&parse(black_box(bytes)))))),
        repeated(|| _ = black_box(call(canonical, black_box(bytes)))),
    ];
    sample(subjects, least);
}

/// Prints the rows of the named replies of a family, and the row of its geometric means.
fn print_rows<T: Parseable<[u8]> + Emitable>(family: &str, port: Port, replies: &[Row]) {
    let mut least = vec![[f64::INFINITY; 6]; replies.len()];
    for _ in 0..ROUNDS {
        for ((_, bytes), least) in replies.iter().zip(&mut least) {
            time::<T>(port, bytes, least);
        }
    }
    let mut logarithms = [0.0; 3];
    for ((name, _), least) in replies.iter().zip(&least) {
        let ratios = [0, 2, 4].map(|at| least[at + 1] / least[at]);
        for (sum, ratio) in logarithms.iter_mut().zip(ratios) {
            *sum += ratio.ln();
        }
        if !name.is_empty() {
            print_row(&format!("{family}, {name}"), ratios);
        }
    }
    let means = logarithms.map(|sum| (sum / replies.len() as f64).exp());
    let name = format!("{family}, geometric mean of {} replies", replies.len());
    print_row(&name, means);
}

fn print_row(name: &str, [read, written, canonical]: [f64; 3]) {
    println!("| {name} | {read:.2} | {written:.2} | {canonical:.2} |");
}

fn main() {
    println!("| reply | read | written | canonical |\n|---|---|---|---|");
    print_rows::<UnixResponse>("UNIX", UNIX, &unix_replies());
    print_rows::<InetResponse>("IPv4", INET, &inet_replies());
}
