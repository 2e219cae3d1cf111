#!/usr/bin/env python3
"""Compares the layouts and the constants of the crates with the kernel's headers, by gcc.

For each record of RECORDS the script parses its rows in specs/: an offset, a width and the member
of the Rust struct. A C program prints the size of the kernel's struct, and the offset and the end
of each of its members. The fields of `tcp_info` and `mptcp_info`, the bits of `inet_diag_sockopt`
and the public constants are compared in the same way. The installed headers may be those of a
kernel before KNOWN, and lack some of these: the last line but one of the output lists them. All
fields of the two structs, which grow, are also compared with NEWEST. The offsets, sizes and
constants in comments of the C header are compared with both, and so is the file of a struct.

The exit status is 1 if anything differs, if headers lack what they must have, or if RECORDS and the
layouts of specs/ do not have the same names and members. Without gcc or without the headers the
script prints one line and compares nothing.
"""

import re
import shutil
import subprocess
import sys
import tempfile
from pathlib import Path

# The crates whose public constants are the kernel's.
NAMING = """netlink_core sock_diag_records sock_diag_families sock_diag_extras sock_diag_filters
    sock_diag_examples""".split()
CRATES = Path(__file__).resolve().parent.parent / "crates"
HEADER = CRATES.parent / "include/sockdiag.h"
INCLUDED = Path("/usr/include/linux/inet_diag.h")
HEADERS = """stdio.h stddef.h sys/socket.h netinet/in.h linux/netlink.h linux/sock_diag.h
    linux/inet_diag.h linux/unix_diag.h linux/netlink_diag.h linux/packet_diag.h
    linux/vm_sockets_diag.h linux/xdp_diag.h linux/tcp.h linux/tls.h linux/mptcp.h linux/bpf.h
    linux/if_link.h linux/filter.h linux/version.h""".split()
INCLUDES = "".join(f"#if __has_include(<{it}>)\n#include <{it}>\n#endif\n" for it in HEADERS)
# The version of Linux that has all members and constants of the crates, and the first one that has
# the bit fields of `tcp_info`. Older ones have other members there.
KNOWN, BITS_SINCE = (7, 2), (7, 0)
# The questions: the size of a struct, where a member starts and ends, the position of a bit, and
# how many bits a member has.
MACROS = r"""
#define SIZE(s) sizeof(struct s)
#define START(s, m) offsetof(struct s, m)
#define END(s, m) (offsetof(struct s, m) + sizeof(((struct s *)0)->m))
#define BIT(s, m) ({ union { struct s it; unsigned char bytes[sizeof(struct s)]; } u = {}; \
    u.it.m = 1; int at = 0; while (!(u.bytes[at / 8] >> at % 8 & 1)) at++; at; })
#define BITS(s, m) ({ struct s it; it.m = -1; __builtin_popcountll(it.m); })
"""
SOCKET_ID = """source_port=id.idiag_sport destination_port=id.idiag_dport
    source_address=id.idiag_src destination_address=id.idiag_dst interface_id=id.idiag_if
    cookie=id.idiag_cookie"""
# The layout of each record, its C struct, and for each member of the Rust struct its C members:
# several separated by `+`, none if it is not compared. If the text is only `tcpi_`, then this is
# the prefix of all C members. A record without a struct is an array of u32, indexed by constants.
RECORDS = [
    ("header_rows", "nlmsghdr", """length=nlmsg_len message_type=nlmsg_type flags=nlmsg_flags
        sequence_number=nlmsg_seq port_number=nlmsg_pid"""),
    ("vfs", "unix_diag_vfs", "inode=udiag_vfs_ino device=udiag_vfs_dev"),
    ("legacy_mem_info", "inet_diag_meminfo", """receive_queue=idiag_rmem
        bottom_send_queue=idiag_wmem cache=idiag_fmem send_queue=idiag_tmem"""),
    ("tcp_info", "tcp_info", "tcpi_"),
    ("unix_request", "unix_diag_req", """state_flags=udiag_states inode=udiag_ino
        show_flags=udiag_show cookie=udiag_cookie"""),
    ("unix_response_header", "unix_diag_msg", """kind=udiag_type state=udiag_state inode=udiag_ino
        cookie=udiag_cookie"""),
    ("socket_id", "inet_diag_sockid", SOCKET_ID.replace("id.", "")),
    ("inet_request", "inet_diag_req_v2", f"""family=sdiag_family protocol=sdiag_protocol
        extensions=idiag_ext states=idiag_states {SOCKET_ID}"""),
    ("inet_response_header", "inet_diag_msg", f"""family=idiag_family state=idiag_state
        timer.retransmits_of=idiag_retrans {SOCKET_ID}
        timer.expires_of=idiag_expires recv_queue=idiag_rqueue
        send_queue=idiag_wqueue uid=idiag_uid inode=idiag_inode"""),
    ("show_request", "netlink_diag_req", """protocol=sdiag_protocol inode=ndiag_ino
        show=ndiag_show cookie=ndiag_cookie"""),
    ("show_request", "packet_diag_req", """protocol=sdiag_protocol inode=pdiag_ino
        show=pdiag_show cookie=pdiag_cookie"""),
    ("show_request", "xdp_diag_req", """protocol=sdiag_protocol inode=xdiag_ino
        show=xdiag_show cookie=xdiag_cookie"""),
    ("vsock_request", "vsock_diag_req", "states=vdiag_states cookie=vdiag_cookie"),
    ("netlink_header", "netlink_diag_msg", """kind=ndiag_type protocol=ndiag_protocol
        state=ndiag_state port=ndiag_portid destination_port=ndiag_dst_portid
        destination_group=ndiag_dst_group inode=ndiag_ino cookie=ndiag_cookie"""),
    ("packet_header", "packet_diag_msg", """kind=pdiag_type protocol=pdiag_num inode=pdiag_ino
        cookie=pdiag_cookie"""),
    ("parse_packet_info", "packet_diag_info", """interface=pdi_index version=pdi_version
        reserve=pdi_reserve copy_threshold=pdi_copy_thresh timestamp=pdi_tstamp flags=pdi_flags"""),
    ("parse_packet_ring", "packet_diag_ring", """block_size=pdr_block_size blocks=pdr_block_nr
        frame_size=pdr_frame_size frames=pdr_frame_nr retire_timeout=pdr_retire_tmo
        private_size=pdr_sizeof_priv features=pdr_features"""),
    ("vsock_header", "vsock_diag_msg", """kind=vdiag_type state=vdiag_state shutdown=vdiag_shutdown
        source_context=vdiag_src_cid source_port=vdiag_src_port destination_context=vdiag_dst_cid
        destination_port=vdiag_dst_port inode=vdiag_ino cookie=vdiag_cookie"""),
    ("xdp_header", "xdp_diag_msg", "kind=xdiag_type inode=xdiag_ino cookie=xdiag_cookie"),
    ("parse_xdp_info", "xdp_diag_info", "interface=ifindex queue=queue_id"),
    ("parse_xdp_umem", "xdp_diag_umem", """size=size id=id pages=num_pages chunk_size=chunk_size
        headroom=headroom interface=ifindex queue=queue_id flags=flags references=refs"""),
    ("parse_xdp_statistics", "xdp_diag_stats", """received_dropped=n_rx_dropped
        received_invalid=n_rx_invalid received_full=n_rx_full fill_ring_empty=n_fill_ring_empty
        sent_invalid=n_tx_invalid send_ring_empty=n_tx_ring_empty"""),
    ("vegas_info", "tcpvegas_info", """enabled=tcpv_enabled rtt_count=tcpv_rttcnt rtt=tcpv_rtt
        min_rtt=tcpv_minrtt"""),
    ("dctcp_info", "tcp_dctcp_info", """enabled=dctcp_enabled ce_state=dctcp_ce_state
        alpha=dctcp_alpha marked_bytes=dctcp_ab_ecn acked_bytes=dctcp_ab_tot"""),
    ("bbr_info", "tcp_bbr_info", """bandwidth=bbr_bw_lo+bbr_bw_hi min_rtt=bbr_min_rtt
        pacing_gain=bbr_pacing_gain window_gain=bbr_cwnd_gain"""),
    ("md5_signature", "tcp_diag_md5sig", """family=tcpm_family prefix_length=tcpm_prefixlen
        key_length=tcpm_keylen address=tcpm_addr key=tcpm_key"""),
    ("stored_address", "sockaddr_storage", """family=ss_family port= front= segments= scope_id=
        rest="""),
    ("stored_address", "sockaddr_in", """family=sin_family port=sin_port front=sin_addr segments=
        scope_id= rest="""),
    ("stored_address", "sockaddr_in6", """family=sin6_family port=sin6_port front=sin6_flowinfo
        segments=sin6_addr scope_id=sin6_scope_id rest="""),
    ("packet_membership", "packet_diag_mclist", """interface=pdmc_index count=pdmc_count
        kind=pdmc_type address_length=pdmc_alen address=pdmc_addr"""),
    ("filter_instruction", "sock_filter", """code=code jump_if_met=jt jump_if_not_met=jf
        operand=k"""),
    ("socket_options", "inet_diag_sockopt", "bits="),
    ("mem_info", "", """receive_queue=RMEM_ALLOC receive_queue_max=RCVBUF
        bottom_send_queues=WMEM_ALLOC send_queue_max=SNDBUF cache=FWD_ALLOC send_queue=WMEM_QUEUED
        options=OPTMEM backlog_queue_length=BACKLOG drops=DROPS"""),
    ("unix_mem_info", "", "so_rcvbuf=RCVBUF max_datagram_size=SNDBUF alloc=WMEM_QUEUED"),
]
# Structs that are longer in newer kernels, or are the start of a longer record.
OTHER_SIZE = {"tcp_info", "sockaddr_in", "sockaddr_in6"}
# A question that all headers answer. Only these three structs gain members in newer kernels.
ANSWERED = re.compile(r"(?:SIZE|START|END|BIT)\((?!(?:mp)?tcp_info,|inet_diag_sockopt,)")
# Members of `tcp_info` that are bytes of bit fields, and the first C member of each.
BIT_FIELDS = {"wscale": "tcpi_snd_wscale"}
BIT_FIELDS["delivery_rate_app_limited"] = "tcpi_delivery_rate_app_limited"
CONSTANT = re.compile(r"^ *pub const ([A-Z0-9_]+): u(?:8|16|32|64) = ([0-9a-fx]+);", re.M)
# The bits of `inet_diag_sockopt`.
OPTIONS = """recverr is_icsk freebind hdrincl mc_loop transparent mc_all nodefrag
    bind_address_no_port recverr_rfc4884 defer_connect""".split()
# A definition of a layout, and a definition that has one clause.
LAYOUT = re.compile(
    r"^(?:abbrev|unfoldable) pub (\w+) : (?:\([^)]*\) → )?(?:Layout|RecordTable) "
    r"|^(\w+)[^=\n]*= parse_if_long_enough \(", re.M
)
CLAUSE = re.compile(r"^([a-z]\w*)\b[^:=\n]*=((?:.|\n(?!\S))*)", re.M)
LENGTH = re.compile(
    r"plain (?:\([^)]*\)|[\w.]+) (\d+)|(?:least|size) = (\d+);"
    r"|^parse_if_long_enough \([^)]*\) (\d+)"
)
# The width of each kind of row, or of one element of an array.
WIDTHS = {"u8": 1, "u16": 2, "u32": 4, "u64": 8, "be16": 2, "flags32": 4, "address": 16, "u8s": 1,
          "be16s": 2}
# A row, with its kind, its offset, its count of elements, and its member: that of a Rust type, or
# that of the variable of a function.
ROW = re.compile(
    rf"\b({'|'.join(WIDTHS)}) (\d+|offset|\(offset \+ \d+\)) (?:(\d+) |[\w.]+ )??"
    r"(?:[A-Z]\w*\.(\w+)|\(λ (\w+)\. [^.]*?((?:retransmits|expires)_of )?\b\5\.(\w+))"
)
# A member of a record that is only parsed, and a reference to the rows of another definition.
PARSED = re.compile(r"(\w+) = u(32|64)_at (\d+) bytes;")
REFERENCE = re.compile(r"\b(\w+_(?:rows|fields))\b(?: (\d+))?")


def member_name(member, of_timer, of_variable):
    """Returns the name of a row's member: one of the last three groups of ROW. The timer has two
    rows, each with what it takes of the timer."""
    return member or (f"timer.{of_timer.strip()}" if of_timer else of_variable)


def definitions():
    """Returns the texts of the definitions in specs/, without line breaks, and the names of the
    layouts. A layout takes precedence over another definition with its name."""
    texts, layouts = {}, set()
    for path in CRATES.glob("*/specs/*.antt"):
        text = re.sub(r" *--.*", "", path.read_text(encoding="utf-8"))
        found = {one or other for one, other in LAYOUT.findall(text)}
        layouts |= found
        for name, body in CLAUSE.findall(text):
            if name in found or name not in texts:
                texts[name] = " ".join(body.split())
    return texts, layouts


TEXTS, LAYOUTS = definitions()


def number_of(text, offset):
    """Returns a number or a sum. `offset` is that of an embedded record."""
    return sum(offset if it == "offset" else int(it) for it in re.findall(r"\w+", text))


def members_of(name, offset=0):
    """Returns the offset and the width of each member in the rows of a definition."""
    text, members = TEXTS[name], {}
    for kind, at, count, member, _, of_timer, of_variable in ROW.findall(text):
        # The timer has two rows, which take different parts of it.
        member = member_name(member, of_timer, of_variable)
        members[member] = (number_of(at, offset), WIDTHS[kind] * int(count or 1))
    for member, bits, at in PARSED.findall(text):
        members[member] = (int(at), int(bits) // 8)
    for other, at in REFERENCE.findall(text):
        if other in TEXTS and other != name:
            members |= members_of(other, int(at or 0))
    return members


def about_members(struct, members, names):
    """Yields the questions about members of a struct, each with the answer of specs/."""
    for member, (at, width) in members.items():
        inside = names[member]
        if not struct:
            yield f"4 * SK_MEMINFO_{inside}", at
            yield f"4 * (SK_MEMINFO_{inside} + 1)", at + width
        elif struct == "tcp_info" and member in BIT_FIELDS:
            yield f"BIT({struct}, {BIT_FIELDS[member]})", at * 8
        elif inside:
            first, last = inside.split("+")[0], inside.split("+")[-1]
            yield f"START({struct}, {first})", at
            yield f"END({struct}, {last})", at + width


def about_record(table, struct, names):
    """Yields the questions about a record, each with the answer of specs/."""
    members, length = members_of(table), LENGTH.search(TEXTS[table])
    size = f"SIZE({struct})" if struct else "4 * SK_MEMINFO_VARS"
    yield f"{size} > 0", 1
    least = int(next(filter(None, length.groups()))) if length else 0
    if struct not in OTHER_SIZE:
        yield size, max(least, *(at + width for at, width in members.values()))
        if struct and least:
            yield size, least
    known = dict(it.split("=") for it in names.split() if "=" in it)
    known = known or {member: names + member for member in members}
    differing = ", ".join(sorted(known.keys() ^ members.keys()))
    if differing:
        sys.exit(f"tests/kernel_headers.py: {table}: RECORDS and specs/ differ in {differing}")
    yield from about_members(struct, members, known)


def about_fields(module, struct, prefix, version):
    """Yields the questions about the spans in a module of specs/, each with its answer there."""
    text = (CRATES / f"sock_diag_extras/specs/{module}.antt").read_text(encoding="utf-8")
    bits = re.findall(r"^tcp_bits_of field\.(\w+) = Some \((\d+), (\d+)\)", text, re.M)
    bits = {field: (int(lowest), int(count)) for field, lowest, count in bits}
    for field, at, width in re.findall(r"tcp_span_of field\.(\w+) = \((\d+), (\d+)\)", text):
        member = re.sub(r"(?<=[a-z\d])(?=[A-Z])", "_", field).lower()
        at, width, inside = int(at), int(width), prefix + member
        if field not in bits:
            yield from about_members(struct, {member: (at, width)}, {member: inside})
        elif version >= BITS_SINCE:
            lowest, count = bits[field]
            yield f"BIT({struct}, {inside})", 8 * at + lowest
            yield f"BITS({struct}, {inside})", count


def c_name(constant):
    """Returns the name of a constant in the headers."""
    if constant == "AF_DECNET":
        return "AF_DECnet"
    start, middle, state = constant.partition("_CA_")
    if middle and state != "CWR":
        return start + middle + state.capitalize()
    return re.sub(r"^TCP_(?!CA_)", "BPF_TCP_", constant)


def questions(version):
    """Yields all questions for headers of a version, C expressions, each with the answer of the
    crates."""
    for record in RECORDS:
        yield from about_record(*record)
    yield from about_fields("TcpFields", "tcp_info", "tcpi_", version)
    yield from about_fields("MptcpFields", "mptcp_info", "mptcpi_", version)
    options = (CRATES / "sock_diag_extras/specs/SocketOptions.antt").read_text(encoding="utf-8")
    for option, bit in re.findall(r"^bit_of option\.(\w+) = (\d+)", options, re.M):
        (member,) = (it for it in OPTIONS if it.replace("_", "") == option.lower())
        yield f"BIT(inet_diag_sockopt, {member})", int(bit)
    for path in (path for crate in NAMING for path in CRATES.glob(f"{crate}/src/**/*.rt")):
        for name, value in CONSTANT.findall(path.read_text(encoding="utf-8")):
            yield c_name(name), int(value, 0)


def about_comments():
    """Yields the questions about offsets in the comments of the C header, each with the number that
    the comment has, for each word before it in the sentence that may be a member of the struct or
    a constant. Most words are none, and are not answered. A comment with two numbers is left
    out."""
    text = HEADER.read_text(encoding="utf-8")
    for comment, body in re.findall(r"/\*((?:(?!\*/)[^{])*)\*/\nstruct \w+ \{\n([^}]*)\}", text):
        structs = {"mptcp_info", *(it for _, it, _ in RECORDS)} & {*re.findall(r"\w+", comment)}
        for doc in re.findall(r"(?s)/\*(.*?)\*/", body):
            before, *after = re.split(r"\bat (?:offset )?(?=\d)", " ".join(doc.split()))
            if len(after) != 1:
                continue
            before, offset = before.split(". ")[-1], int(re.match(r"\d+", after[0])[0])
            yield from ((f"4 * {it}", offset) for it in re.findall(r"SK_MEMINFO_\w+", before))
            yield from ((f"START({struct}, {inside}{it})", offset) for struct in structs
                        for it in re.findall(r"\b[a-z]\w\w+", before) for inside in ("", "id."))


def about_numbers():
    """Yields the questions about constants and sizes of structs in the comments of the C header,
    and about the sizes of `tcp_info` in KERNELS.md, each with the number that is there."""
    page = (CRATES.parent / "docs/KERNELS.md").read_text(encoding="utf-8")
    yield from ((f"END(tcp_info, {member})", int(size))
                for size, member in re.findall(r"(?m)^\| (\d+) \| `(tcpi_\w+)`", page))
    text = HEADER.read_text(encoding="utf-8")
    sizes = re.findall(r"(\d+) +/\* Size of struct (\w+) in bytes", text)
    yield from ((f"SIZE({struct})", int(size)) for size, struct in sizes)
    for comment in re.findall(r"(?s)/\*(.*?)\*/", text):
        comment = " ".join(re.sub(r"(?m)^ *\*", "", comment).split())
        for name, number in re.findall(r"\b([A-Z]\w{3,})(?:, type | \()(\d+)\b", comment):
            yield c_name(name), int(number)
        for number, name in re.findall(r"(?<!else )\b(\d+) (?:\(|for )([A-Z]\w{4,})", comment):
            yield c_name(name), int(number)
        for *numbers, start, end in re.findall(r"(\d+) to (\d+), from (\w+) to (\w+)", comment):
            yield from zip(map(c_name, (start, end)), map(int, numbers))
        for struct, size in re.findall(r"\b(\w+)(?: of [\w/.]+)?, (\d+) bytes", comment):
            yield f"SIZE({struct})", int(size)


def comment_errors():
    """Returns how many numbers in comments are compared, and those that the headers do not have."""
    asked = [*about_comments(), *about_numbers()]
    unique = dict.fromkeys(one for one, _ in asked)
    found = answers(INCLUDES, unique) | answers(NEWEST, unique)
    text = re.sub(r"\n +\* ", " ", HEADER.read_text(encoding="utf-8"))
    wrong = []
    for struct, file in re.findall(r"struct (\w+) of (linux/\w+\.h)", text):
        path = INCLUDED.parent.parent / file
        if file not in HEADERS or path.exists() and f"struct {struct} {{" not in path.read_text(
                encoding="utf-8"):
            wrong.append(f"{path} lacks struct {struct}, which a comment of the C header has")
    grown = re.findall(r"in Linux (\d+)\.(\d+)\. Later versions of this header append", text)
    if [tuple(map(int, it)) for it in grown] != [KNOWN, KNOWN]:
        wrong.append(f"the structs that grow are those of {grown} in comments of the C header")
    wrong += [f"{one}: {found[one]} in the headers, {ours} in a comment or in KERNELS.md"
              for one, ours in asked if found.get(one, ours) != ours]
    return len(found), wrong


def answers(included, asked):
    """Returns the answer of the C text `included` to each question, except those that do not
    compile."""
    left = list(asked)
    with tempfile.TemporaryDirectory() as folder:
        source, program = Path(folder, "ask.c"), Path(folder, "ask")
        while True:
            lines = "\n".join(f'printf("%llu\\n", (unsigned long long)({one}));' for one in left)
            text = f"{included}{MACROS}\n#line 1\nint main(void) {{\n{lines}\nreturn 0; }}\n"
            source.write_text(text, encoding="utf-8")
            # Errors inside a macro have the line of its use.
            command = ["gcc", "-ftrack-macro-expansion=0", "-fmax-errors=0", "-o", program, source]
            built = subprocess.run(command, capture_output=True, text=True, check=False)
            unknown = {int(it) - 2 for it in re.findall(r"ask\.c:(\d+):\d+: error", built.stderr)}
            if built.returncode == 0:
                break
            if not unknown:
                sys.exit(built.stderr)
            left = [one for number, one in enumerate(left) if number not in unknown]
        values = subprocess.run([program], capture_output=True, text=True, check=True).stdout
    return dict(zip(left, map(int, values.split()), strict=True))


def compare(included, version, asked):
    """Compares the C text `included`, of a version, with questions and answers. Returns how many
    questions it answers, the errors, and the members and constants that it lacks."""
    found = answers(included, dict.fromkeys(one for one, _ in asked))
    missing = dict.fromkeys(one for one, _ in asked if one not in found)
    lacking = dict.fromkeys(re.findall(r"\w+", it)[-1] for it in missing)
    wrong = [f"{one}: {found[one]} in the headers, {ours} in the crates"
             for one, ours in asked if found.get(one, ours) != ours]
    wrong += [f"{it}: not in the headers" for it in missing if ANSWERED.match(it)]
    wrong += [f"{it}: not in headers of a new kernel" for it in lacking if version >= KNOWN]
    return len(found), wrong, lacking


# Both structs of Linux 7.2. Fields of later kernels are added here too.
NEWEST = """
#include <stddef.h>
#include <stdio.h>
#include <linux/types.h>
struct tcp_info {
    __u8 tcpi_state, tcpi_ca_state, tcpi_retransmits, tcpi_probes, tcpi_backoff, tcpi_options;
    __u8 tcpi_snd_wscale : 4, tcpi_rcv_wscale : 4;
    __u8 tcpi_delivery_rate_app_limited : 1, tcpi_fastopen_client_fail : 2;
    __u32 tcpi_rto, tcpi_ato, tcpi_snd_mss, tcpi_rcv_mss, tcpi_unacked, tcpi_sacked, tcpi_lost;
    __u32 tcpi_retrans, tcpi_fackets, tcpi_last_data_sent, tcpi_last_ack_sent;
    __u32 tcpi_last_data_recv, tcpi_last_ack_recv, tcpi_pmtu, tcpi_rcv_ssthresh, tcpi_rtt;
    __u32 tcpi_rttvar, tcpi_snd_ssthresh, tcpi_snd_cwnd, tcpi_advmss, tcpi_reordering;
    __u32 tcpi_rcv_rtt, tcpi_rcv_space, tcpi_total_retrans;
    __u64 tcpi_pacing_rate, tcpi_max_pacing_rate, tcpi_bytes_acked, tcpi_bytes_received;
    __u32 tcpi_segs_out, tcpi_segs_in, tcpi_notsent_bytes, tcpi_min_rtt, tcpi_data_segs_in;
    __u32 tcpi_data_segs_out;
    __u64 tcpi_delivery_rate, tcpi_busy_time, tcpi_rwnd_limited, tcpi_sndbuf_limited;
    __u32 tcpi_delivered, tcpi_delivered_ce;
    __u64 tcpi_bytes_sent, tcpi_bytes_retrans;
    __u32 tcpi_dsack_dups, tcpi_reord_seen, tcpi_rcv_ooopack, tcpi_snd_wnd;
    __u32 tcpi_rcv_wnd, tcpi_rehash;
    __u16 tcpi_total_rto, tcpi_total_rto_recoveries;
    __u32 tcpi_total_rto_time;
    __u32 tcpi_received_ce, tcpi_delivered_e1_bytes, tcpi_delivered_e0_bytes;
    __u32 tcpi_delivered_ce_bytes, tcpi_received_e1_bytes, tcpi_received_e0_bytes;
    __u32 tcpi_received_ce_bytes;
    __u32 tcpi_ecn_mode : 2, tcpi_accecn_opt_seen : 2, tcpi_accecn_fail_mode : 4;
    __u32 tcpi_options2 : 24;
};
struct mptcp_info {
    __u8 mptcpi_subflows, mptcpi_add_addr_signal, mptcpi_add_addr_accepted, mptcpi_subflows_max;
    __u8 mptcpi_add_addr_signal_max, mptcpi_add_addr_accepted_max;
    __u32 mptcpi_flags, mptcpi_token;
    __u64 mptcpi_write_seq, mptcpi_snd_una, mptcpi_rcv_nxt;
    __u8 mptcpi_local_addr_used, mptcpi_local_addr_max, mptcpi_csum_enabled;
    __u32 mptcpi_retransmits;
    __u64 mptcpi_bytes_retrans, mptcpi_bytes_sent, mptcpi_bytes_received, mptcpi_bytes_acked;
    __u8 mptcpi_subflows_total, mptcpi_endp_laminar_max, mptcpi_endp_fullmesh_max, reserved;
    __u32 mptcpi_last_data_sent, mptcpi_last_data_recv, mptcpi_last_ack_recv;
};
"""


def main():
    if not shutil.which("gcc") or not INCLUDED.exists():
        print(f"skipped: tests/kernel_headers.py: no gcc or no {INCLUDED}")
        return 0
    code = answers(INCLUDES, ["LINUX_VERSION_CODE"])["LINUX_VERSION_CODE"]
    version = (code >> 16, code >> 8 & 255)
    count, wrong, lacking = compare(INCLUDES, version, [*questions(version)])
    wrong += [f"{it}: missing from RECORDS" for it in LAYOUTS - {table for table, _, _ in RECORDS}]
    in_comments, errors = comment_errors()
    count, wrong = count + in_comments, wrong + errors
    grow = [it for it in questions(KNOWN) if re.search(r"\((?:mp)?tcp_info,", it[0])]
    wrong += compare(NEWEST, KNOWN, grow)[1]
    print(*wrong, sep="\n", end="\n" * bool(wrong))
    print("The installed headers lack:", ", ".join(lacking) or "nothing")
    print(f"tests/kernel_headers.py: {count} lengths, offsets and constants compared, "
          f"{len(wrong)} errors")
    return int(bool(wrong) or not count)


if __name__ == "__main__":
    sys.exit(main())
