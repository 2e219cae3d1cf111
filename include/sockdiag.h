/*
 * Parses and serializes messages of sock_diag(7) with the headers of netlink(7), in the caller's
 * memory. To list sockets:
 * 1. Open a socket of NETLINK_SOCK_DIAG, and connect it to port id 0, the kernel. getsockname(2)
 *    then returns its port id, which each answer contains. Write a request, by
 *    sockdiag_write_inet_request and its siblings, and send it.
 * 2. Receive datagrams. recv(2) with MSG_TRUNC returns the length of a datagram that exceeds the
 *    buffer, and fails with ENOBUFS if datagrams were lost: request the dump again.
 * 3. Iterate over the messages of each by sockdiag_next_any_message. sockdiag_is_answer and
 *    sockdiag_ends_answer test which ones belong to the answer, and which one ends it.
 * 4. Parse the payload of each message of type SOCK_DIAG_BY_FAMILY by the lenient call of its
 *    family, the first byte, such as sockdiag_inet_get_lenient_details.
 * A payload is the bytes of a message after its netlink header. dump.h of the examples does the
 * steps 1 to 3, except that its caller writes the request.
 *
 * Each call returns 0 (SOCKDIAG_OK) if it has succeeded, or a positive code, which
 * sockdiag_error_text takes. Calls with _next_ in their names iterate: they return SOCKDIAG_ITEM,
 * SOCKDIAG_END, or the code of an error. Calls with _write_ or _rewrite_ store the number of bytes
 * that they wrote, and with SOCKDIAG_NO_SPACE the number that the buffer has to have. These return
 * no code: sockdiag_version and sockdiag_error_text, and the tests sockdiag_is_answer,
 * sockdiag_is_interrupted and sockdiag_ends_answer, which return 1 or 0.
 *
 * The structs named sockdiag_.._details, and struct sockdiag_vsock_header, sockdiag_tcp_info and
 * sockdiag_mptcp_info, may get more fields at their end in a later version; no others do. A call
 * that fills one takes its size, sizeof *details. It fills at most this number of bytes, and sets
 * fields that the library does not know to 0. So a program runs with newer libraries, and with
 * older ones if they have all functions that it calls. A size below that of version 1.0 is
 * SOCKDIAG_INVALID_ARGUMENT, except that of a struct sockdiag_tcp_info or sockdiag_mptcp_info,
 * which may have any size.
 *
 * The library does not allocate, opens no files or sockets, and has no state between calls. So any
 * thread may call it at any time, with memory that meets the requirements below. It needs at most
 * memcpy, memmove, memset, bcmp and abort of the system (libc). Only the library that cargo builds
 * needs the last two, and no call reaches abort. The host has to be little-endian, with pointers of
 * 64 bits.
 *
 * The caller has to ensure the following, and nothing checks it:
 * - A pointer to bytes is valid for the length in bytes that the parameter next to it gives. The
 *   length is at most PTRDIFF_MAX. The pointer may be null if the length is 0. Bytes need no
 *   alignment.
 * - A pointer to a struct is aligned for it. All fields of a const struct, and of a cursor, are
 *   initialized.
 * - Memory that a call writes, which is a buffer or a struct that is not const, overlaps no other
 *   memory that the call is given. No other thread reads or writes it during the call. Memory that
 *   a call only reads is not written during the call.
 *
 * A struct or number that a call returns need not be initialized: no return value depends on its
 * contents. Unless the comment of a call says otherwise, all of its fields are set if the call
 * returns SOCKDIAG_OK or SOCKDIAG_ITEM, and it is unchanged otherwise. The padding between fields
 * may have any contents, so do not compare structs by memcmp.
 *
 * Messages have the byte order of the kernel's processor, which has to be little-endian. Numbers in
 * structs are in the byte order of the host, ports included. Addresses are in network byte order,
 * as inet_ntop expects them, except segments of struct sockdiag_stored_address. A cookie of eight
 * bytes is a copy of the bytes in the message. The cookie of a netlink, packet, vsock or XDP socket
 * is a number. Offsets in comments are those in the kernel's structs.
 *
 * The kind of an attribute is its type without the two flag bits, as SOCKDIAG_UNIX_DIAG_NAME; the
 * field kind of the header of a reply is the type of the socket, SOCK_STREAM and so on. A port id
 * is the address of a netlink socket, and not a port number.
 *
 * tools/bindings of the sources writes this file from the crate sockdiag_c. What it says of a call
 * is proved there, by the contract of the function of the same name (sockdiag_.._fill_.. for an
 * inline function, which only splits the struct at its size in version 1.0), and by those of the
 * functions in src/laws.rt: a_step_passes_the_first_attribute, a_step_passes_the_first_message,
 * lenient_calls_agree_with_strict_calls, strict_calls_agree_with_checks and
 * every_rejected_kind_has_a_code. No contract states that the library does not allocate and has no
 * state, how long a call takes, where the pointer of a text points, that a call does not read the
 * previous contents of a struct, and what sockdiag_error_text returns.
 */
#ifndef SOCKDIAG_H
#define SOCKDIAG_H

#include <stddef.h>
#include <stdint.h>

#if defined(__SIZEOF_POINTER__) && __SIZEOF_POINTER__ != 8
#error "sockdiag.h is for hosts with pointers of 64 bits"
#endif

/*
 * The version of this header and of the library that it is shipped with, as a text and as the
 * number that sockdiag_version returns.
 */
#define SOCKDIAG_VERSION "1.0.0"
#define SOCKDIAG_VERSION_NUMBER 1000000

#ifdef __cplusplus
extern "C" {
#endif

/*
 * Returns the version of the library as a number: 1,000,000 times the first number of the version,
 * plus 1,000 times the second one, plus the third one. It is SOCKDIAG_VERSION_NUMBER of the header
 * that the library was built with.
 */
uint32_t sockdiag_version(void);

/*
 * Return values of the calls. Those between SOCKDIAG_OK and SOCKDIAG_ITEM are decode errors: why
 * bytes are rejected. If bytes have several errors, a call returns the first. The only text that
 * has to be valid UTF-8 is the name of a congestion control algorithm.
 */
enum sockdiag_code {
    SOCKDIAG_OK = 0,                        /* The call has succeeded. */
    SOCKDIAG_BUFFER_TOO_SMALL = 2,          /* A record has fewer bytes than it needs. */
    SOCKDIAG_UNSUPPORTED_FAMILY = 3,        /* The family of an internet socket is neither
                                               AF_INET nor AF_INET6. */
    SOCKDIAG_MESSAGE_TOO_SHORT = 4,         /* A message has fewer than 2 bytes: its family, and
                                               the byte after it. */
    SOCKDIAG_UNKNOWN_FAMILY = 5,            /* The family, which is the first byte of a message,
                                               is not one that the call takes. */
    SOCKDIAG_UNKNOWN_MESSAGE_TYPE = 6,      /* The type of a message is not SOCK_DIAG_BY_FAMILY. */
    SOCKDIAG_ATTRIBUTE_HEADER_CUT = 7,      /* Fewer bytes are left than the 4 of an attribute's
                                               header. */
    SOCKDIAG_ATTRIBUTE_LENGTH_UNDER_4 = 8,  /* The length field of an attribute is below 4, the
                                               length of its header. */
    SOCKDIAG_ATTRIBUTE_LENGTH_PAST = 9,     /* The length field of an attribute is above the
                                               number of bytes from its first byte to the end. */
    SOCKDIAG_WRONG_LENGTH = 10,             /* A value does not have the length that its kind
                                               requires. */
    SOCKDIAG_NOT_MULTIPLE_OF_FOUR = 11,     /* The length of a list of 32-bit numbers is not a
                                               multiple of 4. */
    SOCKDIAG_NOT_UTF8 = 12,                 /* A text is not valid UTF-8. */
    SOCKDIAG_NAME_EMPTY = 13,               /* A socket's name has no bytes. */
    SOCKDIAG_NAME_INNER_ZERO = 14,          /* A pathname contains a NUL before its last byte. */
    SOCKDIAG_NAME_WITHOUT_END = 15,         /* A pathname contains no NUL. */
    SOCKDIAG_ENVELOPE_CUT = 16,             /* A message has fewer bytes than the 16 of its
                                               netlink header. */
    SOCKDIAG_ENVELOPE_LENGTH_UNDER_16 = 17, /* The length field of a message is below 16, the
                                               length of its netlink header. */
    SOCKDIAG_ENVELOPE_LENGTH_PAST = 18,     /* The length field of a message is above the number
                                               of bytes. */
    SOCKDIAG_ITEM = 100,                    /* An iterator has stored an item. */
    SOCKDIAG_END = 101,                     /* An iterator is at the end, or the reply lacks the
                                               value that the call copies, or has one of length
                                               0. */
    SOCKDIAG_NO_SPACE = 102,                /* The buffer is shorter than the message, whose
                                               length is stored. */
    SOCKDIAG_TOO_LONG = 103,                /* A message or an attribute is too long for its
                                               length field. */
    SOCKDIAG_INVALID_ARGUMENT = 104,        /* The size of a struct is below that of version 1.0,
                                               or the argument what is unknown. */
    SOCKDIAG_FILTER_UNEXPECTED = 105,       /* No filter begins with the text up to and including
                                               a word, and one begins with the words before it. */
    SOCKDIAG_FILTER_INCOMPLETE = 106,       /* The text ends before the end of the filter. */
    SOCKDIAG_FILTER_TOO_LONG = 107          /* With a word the filter has more than 256
                                               conditions, operators and open groups. */
};

/*
 * Returns the text of a code: a constant string in English. Any number may be passed: the text of
 * one that no call returns is "unknown error code".
 */
static inline const char *sockdiag_error_text(uint32_t error)
{
    switch (error) {
    case SOCKDIAG_OK:
        return "no error";
    case SOCKDIAG_ITEM:
        return "an item";
    case SOCKDIAG_END:
        return "no more items, or no such value";
    case SOCKDIAG_NO_SPACE:
        return "buffer is shorter than the message";
    case SOCKDIAG_TOO_LONG:
        return "too long for a length field";
    case SOCKDIAG_INVALID_ARGUMENT:
        return "invalid argument";
    case SOCKDIAG_BUFFER_TOO_SMALL:
        return "buffer of too few bytes";
    case SOCKDIAG_UNSUPPORTED_FAMILY:
        return "unsupported address family: expected AF_INET (2) or AF_INET6 (10)";
    case SOCKDIAG_MESSAGE_TOO_SHORT:
        return "invalid buffer: packets are at least 2 bytes";
    case SOCKDIAG_UNKNOWN_FAMILY:
        return "unknown address family";
    case SOCKDIAG_UNKNOWN_MESSAGE_TYPE:
        return "unknown message type";
    case SOCKDIAG_ATTRIBUTE_HEADER_CUT:
        return "attribute header cut";
    case SOCKDIAG_ATTRIBUTE_LENGTH_UNDER_4:
        return "attribute length is under 4";
    case SOCKDIAG_ATTRIBUTE_LENGTH_PAST:
        return "attribute length is past the bytes left";
    case SOCKDIAG_WRONG_LENGTH:
        return "value of the wrong number of bytes";
    case SOCKDIAG_NOT_MULTIPLE_OF_FOUR:
        return "value length is no multiple of 4";
    case SOCKDIAG_NOT_UTF8:
        return "text is not UTF-8";
    case SOCKDIAG_NAME_EMPTY:
        return "name is empty";
    case SOCKDIAG_NAME_INNER_ZERO:
        return "pathname holds a zero";
    case SOCKDIAG_NAME_WITHOUT_END:
        return "pathname is not null-terminated";
    case SOCKDIAG_ENVELOPE_CUT:
        return "message header cut";
    case SOCKDIAG_ENVELOPE_LENGTH_UNDER_16:
        return "message length is under 16";
    case SOCKDIAG_ENVELOPE_LENGTH_PAST:
        return "message length is past the bytes given";
    case SOCKDIAG_FILTER_UNEXPECTED:
        return "unexpected word";
    case SOCKDIAG_FILTER_INCOMPLETE:
        return "the filter is not complete";
    case SOCKDIAG_FILTER_TOO_LONG:
        return "more than 256 conditions, operators and groups";
    default:
        return "unknown error code";
    }
}

/* ---- constants of the kernel
 *
 * They have the kernel's names with the prefix SOCKDIAG_, so that a program needs no header of the
 * kernel or the C library for them. Comments here use the kernel's names.
 */

/* The protocol of a socket of family AF_NETLINK, for socket(2). */
enum sockdiag_netlink_protocol {
    SOCKDIAG_NETLINK_SOCK_DIAG = 4 /* The netlink protocol of sock_diag(7), for socket(2). */
};

/*
 * Groups of NETLINK_SOCK_DIAG: the kernel sends a reply for each socket of the group that it
 * destroys, as ss -E prints. Join a group by the option NETLINK_ADD_MEMBERSHIP of netlink(7). Such
 * a reply has the protocol, INET_DIAG_PROTOCOL. The header of its message has sequence number 0 and
 * port id 0.
 */
enum sockdiag_group {
    SOCKDIAG_SKNLGRP_NONE = 0,              /* No group. */
    SOCKDIAG_SKNLGRP_INET_TCP_DESTROY = 1,  /* Destroyed TCP sockets of IPv4. */
    SOCKDIAG_SKNLGRP_INET_UDP_DESTROY = 2,  /* Destroyed UDP sockets of IPv4. */
    SOCKDIAG_SKNLGRP_INET6_TCP_DESTROY = 3, /* Destroyed TCP sockets of IPv6. */
    SOCKDIAG_SKNLGRP_INET6_UDP_DESTROY = 4  /* Destroyed UDP sockets of IPv6. */
};

/* Message types of netlink(7) and sock_diag(7). */
enum sockdiag_message_type {
    SOCKDIAG_NLMSG_NOOP = 1,           /* Message type without any content, see netlink(7). */
    SOCKDIAG_NLMSG_ERROR = 2,          /* Message type of an error, or of the acknowledgement of
                                          a request. */
    SOCKDIAG_NLMSG_DONE = 3,           /* Message type that ends a dump. */
    SOCKDIAG_NLMSG_OVERRUN = 4,        /* Message type that reports that data was lost. */
    SOCKDIAG_SOCK_DIAG_BY_FAMILY = 20, /* A request for sockets, or a reply about one. */
    SOCKDIAG_SOCK_DESTROY = 21         /* A request to close a socket. */
};

/* Flags of a message header, netlink(7). */
enum sockdiag_message_flag {
    SOCKDIAG_NLM_F_REQUEST = 1,          /* Header flag of every request. */
    SOCKDIAG_NLM_F_DUMP = 0x300,         /* Header flags that request all entries of a table:
                                            NLM_F_ROOT | NLM_F_MATCH. */
    SOCKDIAG_NLM_F_MULTI = 2,            /* Part of a multipart message, which NLMSG_DONE
                                            terminates. */
    SOCKDIAG_NLM_F_ACK = 4,              /* In a request: requests an acknowledgement. */
    SOCKDIAG_NLM_F_ECHO = 8,             /* In a request: requests the notifications that it
                                            causes. */
    SOCKDIAG_NLM_F_DUMP_INTR = 0x10,     /* In a reply: the dump is inconsistent, since the
                                            sockets changed during the dump. */
    SOCKDIAG_NLM_F_DUMP_FILTERED = 0x20, /* In a reply: the dump was filtered as requested. */
    SOCKDIAG_NLM_F_ROOT = 0x100,         /* In a request: requests the complete table. */
    SOCKDIAG_NLM_F_MATCH = 0x200,        /* In a request: requests all entries that match. */
    SOCKDIAG_NLM_F_ATOMIC = 0x400,       /* In a request: requests an atomic snapshot. */
    SOCKDIAG_NLM_F_CAPPED = 0x100,       /* In an NLMSG_ERROR: it contains only the header of the
                                            request. */
    SOCKDIAG_NLM_F_ACK_TLVS = 0x200      /* In an NLMSG_ERROR or NLMSG_DONE: attributes
                                            NLMSGERR_ATTR_.. follow. */
};

/*
 * Socket states. UNIX, UDP and other sockets have these states too: a UNIX socket is in state 1, 7
 * or 10.
 */
enum sockdiag_state {
    SOCKDIAG_TCP_ESTABLISHED = 1,    /* The connection is open. */
    SOCKDIAG_TCP_SYN_SENT = 2,       /* A SYN was sent. */
    SOCKDIAG_TCP_SYN_RECV = 3,       /* A SYN was received and answered. */
    SOCKDIAG_TCP_FIN_WAIT1 = 4,      /* The local side has sent a FIN, and waits for its
                                        acknowledgement. */
    SOCKDIAG_TCP_FIN_WAIT2 = 5,      /* The local side has closed, and waits for a FIN. */
    SOCKDIAG_TCP_TIME_WAIT = 6,      /* Both sides have closed; late segments are waited for. */
    SOCKDIAG_TCP_CLOSE = 7,          /* There is no connection. */
    SOCKDIAG_TCP_CLOSE_WAIT = 8,     /* The remote side has sent a FIN, and the local side has
                                        not. */
    SOCKDIAG_TCP_LAST_ACK = 9,       /* Both sides have closed, the remote side first; the last
                                        acknowledgement is waited for. */
    SOCKDIAG_TCP_LISTEN = 10,        /* The socket listens for connections. */
    SOCKDIAG_TCP_CLOSING = 11,       /* Both sides have closed at the same time, and wait for the
                                        acknowledgement. */
    SOCKDIAG_TCP_BOUND_INACTIVE = 13 /* Bound and not connected. A request selects this state by
                                        bit 13; replies have the state 7 (TCP_CLOSE). */
};

/* Attributes that a request for UNIX sockets selects. */
enum sockdiag_unix_show {
    SOCKDIAG_UDIAG_SHOW_NAME = 1,     /* Requests UNIX_DIAG_NAME. */
    SOCKDIAG_UDIAG_SHOW_VFS = 2,      /* Requests UNIX_DIAG_VFS. */
    SOCKDIAG_UDIAG_SHOW_PEER = 4,     /* Requests UNIX_DIAG_PEER. */
    SOCKDIAG_UDIAG_SHOW_ICONS = 8,    /* Requests UNIX_DIAG_ICONS. */
    SOCKDIAG_UDIAG_SHOW_RQLEN = 16,   /* Requests UNIX_DIAG_RQLEN. */
    SOCKDIAG_UDIAG_SHOW_MEMINFO = 32, /* Requests UNIX_DIAG_MEMINFO. */
    SOCKDIAG_UDIAG_SHOW_UID = 64      /* Flag of a UNIX request: requests UNIX_DIAG_UID. */
};

/*
 * The bits of the kind in the type field of an attribute, type_word (NLA_TYPE_MASK of
 * linux/netlink.h). The other two are NLA_F_NESTED and NLA_F_NET_BYTEORDER.
 */
#define SOCKDIAG_NLA_TYPE_MASK 0x3fff

/* Kinds of attributes in replies about UNIX sockets. */
enum sockdiag_unix_attribute {
    SOCKDIAG_UNIX_DIAG_NAME = 0,     /* Name that the socket is bound to. */
    SOCKDIAG_UNIX_DIAG_VFS = 1,      /* File that the socket is bound to: struct unix_diag_vfs. */
    SOCKDIAG_UNIX_DIAG_PEER = 2,     /* Inode number of the peer. */
    SOCKDIAG_UNIX_DIAG_ICONS = 3,    /* Inode numbers of sockets that connected and were not
                                        accepted yet. */
    SOCKDIAG_UNIX_DIAG_RQLEN = 4,    /* Lengths of the queues. */
    SOCKDIAG_UNIX_DIAG_MEMINFO = 5,  /* Memory of the socket: an array of u32, indexed by
                                        SK_MEMINFO_*. */
    SOCKDIAG_UNIX_DIAG_SHUTDOWN = 6, /* Directions that are shut down, a u8: bit 0 for receiving,
                                        bit 1 for sending. See shutdown(2). */
    SOCKDIAG_UNIX_DIAG_UID = 7       /* Kind of the attribute with the user id of the UNIX
                                        socket's owner. */
};

/*
 * Kinds of attributes in replies about IPv4 and IPv6 sockets. A request selects some by its
 * field extensions. The kernel sends some others unasked.
 */
enum sockdiag_inet_attribute {
    SOCKDIAG_INET_DIAG_NONE = 0,             /* No attribute. */
    SOCKDIAG_INET_DIAG_MEMINFO = 1,          /* Memory of the socket in the format of old
                                                kernels: struct inet_diag_meminfo. */
    SOCKDIAG_INET_DIAG_INFO = 2,             /* State of the TCP connection: struct tcp_info. */
    SOCKDIAG_INET_DIAG_VEGASINFO = 3,        /* Measurements of TCP Vegas: struct tcpvegas_info. */
    SOCKDIAG_INET_DIAG_CONG = 4,             /* Name of the congestion control algorithm. */
    SOCKDIAG_INET_DIAG_TOS = 5,              /* Type of service, a u8. */
    SOCKDIAG_INET_DIAG_TCLASS = 6,           /* IPv6 traffic class, a u8. */
    SOCKDIAG_INET_DIAG_SKMEMINFO = 7,        /* Memory of the socket: an array of u32, indexed by
                                                SK_MEMINFO_*. */
    SOCKDIAG_INET_DIAG_SHUTDOWN = 8,         /* Directions that are shut down, a u8: bit 0 for
                                                receiving, bit 1 for sending. See shutdown(2). */
    SOCKDIAG_INET_DIAG_DCTCPINFO = 9,        /* Measurements of DCTCP: struct tcp_dctcp_info. */
    SOCKDIAG_INET_DIAG_PROTOCOL = 10,        /* Protocol of a raw socket, or of the socket of an
                                                event, IPPROTO_*. */
    SOCKDIAG_INET_DIAG_SKV6ONLY = 11,        /* Whether the socket is IPv6-only. */
    SOCKDIAG_INET_DIAG_LOCALS = 12,          /* Local addresses of an SCTP socket. */
    SOCKDIAG_INET_DIAG_PEERS = 13,           /* Remote addresses of an SCTP association. */
    SOCKDIAG_INET_DIAG_PAD = 14,             /* Padding. */
    SOCKDIAG_INET_DIAG_MARK = 15,            /* Mark of the socket, SO_MARK of socket(7). */
    SOCKDIAG_INET_DIAG_BBRINFO = 16,         /* Measurements of BBR: struct tcp_bbr_info. */
    SOCKDIAG_INET_DIAG_CLASS_ID = 17,        /* Traffic class id (net_cls) of the socket's
                                                control group, or if it is 0, the priority of the
                                                socket (SO_PRIORITY). */
    SOCKDIAG_INET_DIAG_MD5SIG = 18,          /* Keys of TCP MD5 signatures. */
    SOCKDIAG_INET_DIAG_ULP_INFO = 19,        /* Kind of the attribute of the upper layer protocol
                                                on TCP (ULP), such as TLS or MPTCP: nested
                                                attributes INET_ULP_INFO_... */
    SOCKDIAG_INET_DIAG_SK_BPF_STORAGES = 20, /* Kind of the attribute of the local storage of BPF
                                                programs for the socket: nested attributes
                                                SK_DIAG_BPF_STORAGE. */
    SOCKDIAG_INET_DIAG_CGROUP_ID = 21,       /* Kind of the attribute with the id of the socket's
                                                control group. */
    SOCKDIAG_INET_DIAG_SOCKOPT = 22          /* Kind of the attribute with the options of the
                                                socket. */
};

/* Kinds of attributes in INET_DIAG_ULP_INFO, whose value is iterated like the reply. */
enum sockdiag_ulp_attribute {
    SOCKDIAG_INET_ULP_INFO_UNSPEC = 0, /* No attribute. */
    SOCKDIAG_INET_ULP_INFO_NAME = 1,   /* The name of the upper layer protocol, with a
                                          terminating NUL. */
    SOCKDIAG_INET_ULP_INFO_TLS = 2,    /* Information about TLS in the kernel: nested attributes
                                          TLS_INFO_... */
    SOCKDIAG_INET_ULP_INFO_MPTCP = 3   /* Information about a subflow of MPTCP: nested attributes
                                          MPTCP_SUBFLOW_ATTR_... */
};

/* Kinds of attributes in INET_ULP_INFO_TLS. */
enum sockdiag_tls_attribute {
    SOCKDIAG_TLS_INFO_UNSPEC = 0,            /* No attribute. */
    SOCKDIAG_TLS_INFO_VERSION = 1,           /* The TLS version. */
    SOCKDIAG_TLS_INFO_CIPHER = 2,            /* The cipher: one of TLS_CIPHER_... */
    SOCKDIAG_TLS_INFO_TXCONF = 3,            /* How sent data is encrypted: one of TLS_CONF_... */
    SOCKDIAG_TLS_INFO_RXCONF = 4,            /* How received data is decrypted: one of
                                                TLS_CONF_... */
    SOCKDIAG_TLS_INFO_ZC_RO_TX = 5,          /* Present if files are sent without a copy. */
    SOCKDIAG_TLS_INFO_RX_NO_PAD = 6,         /* Present if received records are expected to have
                                                no padding. */
    SOCKDIAG_TLS_INFO_TX_MAX_PAYLOAD_LEN = 7 /* Maximum length of the data in a record that is
                                                sent, in bytes. Linux 6.18 does not send it. */
};

/* Kinds of attributes in INET_ULP_INFO_MPTCP. */
enum sockdiag_subflow_attribute {
    SOCKDIAG_MPTCP_SUBFLOW_ATTR_UNSPEC = 0,       /* No attribute. */
    SOCKDIAG_MPTCP_SUBFLOW_ATTR_TOKEN_REM = 1,    /* Token of the connection at the remote end. */
    SOCKDIAG_MPTCP_SUBFLOW_ATTR_TOKEN_LOC = 2,    /* Token of the connection at the local end. */
    SOCKDIAG_MPTCP_SUBFLOW_ATTR_RELWRITE_SEQ = 3, /* Relative sequence number of the data written
                                                     to the subflow. */
    SOCKDIAG_MPTCP_SUBFLOW_ATTR_MAP_SEQ = 4,      /* Sequence number in the connection at which
                                                     the mapped data starts. */
    SOCKDIAG_MPTCP_SUBFLOW_ATTR_MAP_SFSEQ = 5,    /* Sequence number in the subflow at which the
                                                     mapped data starts. */
    SOCKDIAG_MPTCP_SUBFLOW_ATTR_SSN_OFFSET = 6,   /* First sequence number of the peer in the
                                                     subflow. */
    SOCKDIAG_MPTCP_SUBFLOW_ATTR_MAP_DATALEN = 7,  /* Length of the mapped data, in bytes. */
    SOCKDIAG_MPTCP_SUBFLOW_ATTR_FLAGS = 8,        /* Flags of the subflow: bits
                                                     MPTCP_SUBFLOW_FLAG_... */
    SOCKDIAG_MPTCP_SUBFLOW_ATTR_ID_REM = 9,       /* Id of the remote address. */
    SOCKDIAG_MPTCP_SUBFLOW_ATTR_ID_LOC = 10,      /* Id of the local address. */
    SOCKDIAG_MPTCP_SUBFLOW_ATTR_PAD = 11          /* Padding. */
};

/* Kinds of attributes in INET_DIAG_SK_BPF_STORAGES, and in each of its storages. */
enum sockdiag_bpf_storage_attribute {
    SOCKDIAG_SK_DIAG_BPF_STORAGE_REQ_MAP_FD = 1, /* In a request: the file descriptor of a map
                                                    whose storages are requested, a u32. */
    SOCKDIAG_SK_DIAG_BPF_STORAGE = 1,            /* In a reply: one storage, as nested attributes
                                                    SK_DIAG_BPF_STORAGE_MAP_... */
    SOCKDIAG_SK_DIAG_BPF_STORAGE_PAD = 1,        /* In SK_DIAG_BPF_STORAGE: kind of an attribute
                                                    that is padding. */
    SOCKDIAG_SK_DIAG_BPF_STORAGE_MAP_ID = 2,     /* In SK_DIAG_BPF_STORAGE: kind of the attribute
                                                    with the id of the BPF map, a little-endian
                                                    u32. */
    SOCKDIAG_SK_DIAG_BPF_STORAGE_MAP_VALUE = 3   /* In SK_DIAG_BPF_STORAGE: kind of the attribute
                                                    with the bytes that the map stores for the
                                                    socket. */
};

/* Kinds of attributes in an extended acknowledgement. */
enum sockdiag_error_attribute {
    SOCKDIAG_NLMSGERR_ATTR_UNUSED = 0,    /* No attribute. */
    SOCKDIAG_NLMSGERR_ATTR_MSG = 1,       /* Error message, a text with a terminating NUL. */
    SOCKDIAG_NLMSGERR_ATTR_OFFS = 2,      /* Offset of the invalid attribute, from the first byte
                                             of the request's header. */
    SOCKDIAG_NLMSGERR_ATTR_COOKIE = 3,    /* Cookie whose format depends on the kernel's
                                             subsystem. */
    SOCKDIAG_NLMSGERR_ATTR_POLICY = 4,    /* Policy of the rejected attribute: nested attributes. */
    SOCKDIAG_NLMSGERR_ATTR_MISS_TYPE = 5, /* Kind of a required attribute that is missing. */
    SOCKDIAG_NLMSGERR_ATTR_MISS_NEST = 6  /* Offset of the nest in which the attribute is
                                             missing, from the first byte of the request's
                                             header. */
};

/* Kinds of attributes in requests for IPv4 and IPv6 sockets. */
enum sockdiag_inet_request_attribute {
    SOCKDIAG_INET_DIAG_REQ_NONE = 0,            /* Kind of no attribute. The kinds
                                                   INET_DIAG_REQ_.. (linux/inet_diag.h) are those
                                                   of attributes after a struct inet_diag_req_v2. */
    SOCKDIAG_INET_DIAG_REQ_BYTECODE = 1,        /* Kind of a filter: operations INET_DIAG_BC_... */
    SOCKDIAG_INET_DIAG_REQ_SK_BPF_STORAGES = 2, /* Kind of the maps whose BPF storages are
                                                   requested: nested attributes
                                                   SK_DIAG_BPF_STORAGE_REQ_MAP_FD. */
    SOCKDIAG_INET_DIAG_REQ_PROTOCOL = 3         /* Kind of the protocol as a u32, for a protocol
                                                   above 255 such as IPPROTO_MPTCP. */
};

/* Congestion control states of a TCP connection, and its options. */
enum sockdiag_tcp_value {
    SOCKDIAG_TCP_CA_OPEN = 0,         /* The normal state: no sign of loss or congestion. */
    SOCKDIAG_TCP_CA_DISORDER = 1,     /* Duplicate or selective acknowledgements were received. */
    SOCKDIAG_TCP_CA_CWR = 2,          /* The congestion window is being reduced, after a
                                         congestion notification or local congestion. */
    SOCKDIAG_TCP_CA_RECOVERY = 3,     /* Lost segments are retransmitted, by fast retransmit. */
    SOCKDIAG_TCP_CA_LOSS = 4,         /* Lost segments are retransmitted, after the
                                         retransmission timeout. */
    SOCKDIAG_TCPI_OPT_TIMESTAMPS = 1, /* Timestamps. */
    SOCKDIAG_TCPI_OPT_SACK = 2,       /* Selective acknowledgements. */
    SOCKDIAG_TCPI_OPT_WSCALE = 4,     /* Window scaling. */
    SOCKDIAG_TCPI_OPT_ECN = 8,        /* Explicit congestion notification (ECN) was negotiated. */
    SOCKDIAG_TCPI_OPT_ECN_SEEN = 16,  /* A packet of an ECN-capable transport was received. */
    SOCKDIAG_TCPI_OPT_SYN_DATA = 32,  /* Data in the SYN was acknowledged (TCP Fast Open). */
    SOCKDIAG_TCPI_OPT_USEC_TS = 64,   /* Timestamps of segments are in microseconds. Since Linux
                                         6.7. */
    SOCKDIAG_TCPI_OPT_TFO_CHILD = 128 /* The connection was opened by a received fast open
                                         request. Since Linux 6.16. */
};

/* Flags of an MPTCP connection. */
enum sockdiag_mptcp_flag {
    SOCKDIAG_MPTCP_INFO_FLAG_FALLBACK = 1,           /* The connection fell back to TCP. */
    SOCKDIAG_MPTCP_INFO_FLAG_REMOTE_KEY_RECEIVED = 2 /* The key of the peer was received. */
};

/* Protocols and attributes that a request for netlink, packet or XDP sockets selects. */
enum sockdiag_show {
    SOCKDIAG_NDIAG_PROTO_ALL = 255,      /* Requests sockets of all protocols. */
    SOCKDIAG_NDIAG_SHOW_MEMINFO = 0x1,   /* Requests NETLINK_DIAG_MEMINFO. */
    SOCKDIAG_NDIAG_SHOW_GROUPS = 0x2,    /* Requests NETLINK_DIAG_GROUPS. */
    SOCKDIAG_NDIAG_SHOW_FLAGS = 0x8,     /* Requests NETLINK_DIAG_FLAGS. */
    SOCKDIAG_PACKET_SHOW_INFO = 0x1,     /* Requests PACKET_DIAG_INFO and PACKET_DIAG_UID. */
    SOCKDIAG_PACKET_SHOW_MCLIST = 0x2,   /* Requests PACKET_DIAG_MCLIST. */
    SOCKDIAG_PACKET_SHOW_RING_CFG = 0x4, /* Requests PACKET_DIAG_RX_RING and PACKET_DIAG_TX_RING. */
    SOCKDIAG_PACKET_SHOW_FANOUT = 0x8,   /* Requests PACKET_DIAG_FANOUT. */
    SOCKDIAG_PACKET_SHOW_MEMINFO = 0x10, /* Requests PACKET_DIAG_MEMINFO. */
    SOCKDIAG_PACKET_SHOW_FILTER = 0x20,  /* Requests PACKET_DIAG_FILTER. */
    SOCKDIAG_XDP_SHOW_INFO = 0x1,        /* Requests XDP_DIAG_INFO and XDP_DIAG_UID. */
    SOCKDIAG_XDP_SHOW_RING_CFG = 0x2,    /* Requests XDP_DIAG_RX_RING and XDP_DIAG_TX_RING. */
    SOCKDIAG_XDP_SHOW_UMEM = 0x4,        /* Requests XDP_DIAG_UMEM, XDP_DIAG_UMEM_FILL_RING and
                                            XDP_DIAG_UMEM_COMPLETION_RING. */
    SOCKDIAG_XDP_SHOW_MEMINFO = 0x8,     /* Requests XDP_DIAG_MEMINFO. */
    SOCKDIAG_XDP_SHOW_STATS = 0x10       /* Requests XDP_DIAG_STATS. */
};

/* Kinds of attributes in replies about netlink sockets. */
enum sockdiag_netlink_attribute {
    SOCKDIAG_NETLINK_DIAG_MEMINFO = 0, /* Kind of the socket's memory: an array of u32, indexed
                                          by SK_MEMINFO_*. */
    SOCKDIAG_NETLINK_DIAG_GROUPS = 1,  /* Kind of the multicast groups that the socket has
                                          joined: a bit mask. */
    SOCKDIAG_NETLINK_DIAG_RX_RING = 2, /* Kind of the receive ring. Linux 4.6 removed it. */
    SOCKDIAG_NETLINK_DIAG_TX_RING = 3, /* Kind of the transmit ring. Linux 4.6 removed it. */
    SOCKDIAG_NETLINK_DIAG_FLAGS = 4    /* Kind of the socket's flags: a u32 with bits
                                          NDIAG_FLAG_*. */
};

/* Kinds of attributes in replies about packet sockets. */
enum sockdiag_packet_attribute {
    SOCKDIAG_PACKET_DIAG_INFO = 0,    /* Kind of struct sockdiag_packet_info. */
    SOCKDIAG_PACKET_DIAG_MCLIST = 1,  /* Kind of the memberships of the socket
                                         (PACKET_ADD_MEMBERSHIP, packet(7)): an array of struct
                                         packet_diag_mclist, 44 bytes each. */
    SOCKDIAG_PACKET_DIAG_RX_RING = 2, /* Kind of the receive ring: struct sockdiag_packet_ring. */
    SOCKDIAG_PACKET_DIAG_TX_RING = 3, /* Kind of the transmit ring: struct sockdiag_packet_ring. */
    SOCKDIAG_PACKET_DIAG_FANOUT = 4,  /* Kind of the fanout group: a u32. */
    SOCKDIAG_PACKET_DIAG_UID = 5,     /* Kind of the user id of the socket's owner: a u32. */
    SOCKDIAG_PACKET_DIAG_MEMINFO = 6, /* Kind of the socket's memory: an array of u32, indexed by
                                         SK_MEMINFO_*. */
    SOCKDIAG_PACKET_DIAG_FILTER = 7   /* Kind of the socket's filter: a BPF program. */
};

/* Kinds of attributes in replies about XDP sockets. */
enum sockdiag_xdp_attribute {
    SOCKDIAG_XDP_DIAG_INFO = 1,                 /* Kind of struct sockdiag_xdp_info. */
    SOCKDIAG_XDP_DIAG_UID = 2,                  /* Kind of the user id of the socket's owner: a
                                                   u32. */
    SOCKDIAG_XDP_DIAG_RX_RING = 3,              /* Kind of the receive ring: its number of
                                                   entries, a u32 (struct xdp_diag_ring). */
    SOCKDIAG_XDP_DIAG_TX_RING = 4,              /* Kind of the transmit ring: its number of
                                                   entries, a u32 (struct xdp_diag_ring). */
    SOCKDIAG_XDP_DIAG_UMEM = 5,                 /* Kind of struct sockdiag_xdp_umem. */
    SOCKDIAG_XDP_DIAG_UMEM_FILL_RING = 6,       /* Kind of the fill ring, by which the program
                                                   passes frames to the kernel: its number of
                                                   entries, a u32 (struct xdp_diag_ring). */
    SOCKDIAG_XDP_DIAG_UMEM_COMPLETION_RING = 7, /* Kind of the completion ring, by which the
                                                   kernel returns frames to the program: its
                                                   number of entries, a u32 (struct
                                                   xdp_diag_ring). */
    SOCKDIAG_XDP_DIAG_MEMINFO = 8,              /* Kind of the socket's memory: an array of u32,
                                                   indexed by SK_MEMINFO_*. */
    SOCKDIAG_XDP_DIAG_STATS = 9                 /* Kind of struct sockdiag_xdp_statistics. */
};

/* ---- replies
 *
 * A reply is the payload of a message. Its first byte is the family of the socket, which determines
 * the call. Strict calls, sockdiag_.._get_details, reject a reply with any error. Lenient calls,
 * sockdiag_.._get_lenient_details, reject one with an invalid header only, and return the first
 * error of each kind of attribute. Use the lenient calls to list sockets: kernels send values that
 * the library does not accept, an INET_DIAG_INFO without tcpi_snd_wnd (of MPTCP, and of TCP from
 * older kernels) and a UNIX_DIAG_MEMINFO without all fields of struct sockdiag_memory.
 *
 * For all of them:
 * - A number or record that the reply does not contain is all 0, and a text has the kind 0.
 * - Of several attributes of a kind the first valid one counts.
 * - An attribute without a field is not an error: sockdiag_next_attribute returns it.
 * - Bytes after the last field of a record are ignored, since newer kernels send more. A shorter
 *   record is SOCKDIAG_BUFFER_TOO_SMALL, and a number of another length SOCKDIAG_WRONG_LENGTH,
 *   unless the comment of its field says that it is not set then. The two queue lengths of a UNIX
 *   socket are like a number of 8 bytes, and an array has whole records.
 * - Texts point into the payload, and are valid as long as it is.
 * - The family is not checked, except that it is AF_INET or AF_INET6.
 */

/* A number that a reply may contain. */
struct sockdiag_number {
    uint32_t is_set; /* 1 if the reply contains the number, else 0. */
    uint32_t value;  /* The number, or 0. */
};

#define SOCKDIAG_TEXT 1     /* Kind of a pathname, and of the name of a congestion control
                               algorithm. */
#define SOCKDIAG_ABSTRACT 2 /* Kind of an abstract name. */
#define SOCKDIAG_BYTES 3    /* Kind of the groups of a netlink socket, and of memberships and the
                               filter of a packet socket. */

/* A text that a reply may contain, as a pointer into the bytes of the reply. */
struct sockdiag_text {
    uint32_t kind;        /* Kind of the text. SOCKDIAG_TEXT: a pathname, which may contain any
                             bytes except NUL, or the name of a congestion control algorithm,
                             which is valid UTF-8. SOCKDIAG_ABSTRACT: an abstract name, of any
                             bytes. SOCKDIAG_BYTES: the groups of a netlink socket, or the
                             memberships or the filter of a packet socket. 0: the reply contains
                             no such text; then do not use the other fields. bytes is not null
                             then. */
    const uint8_t *bytes; /* The text, without the NUL that ends a text or precedes an abstract
                             name. Do not use it as a string of C: an abstract name may contain
                             NULs, and only a pathname is always followed by its NUL in the
                             reply. */
    size_t length;        /* Length in bytes. */
};

/*
 * Memory of a socket: the fields SK_MEMINFO_.. of linux/sock_diag.h. A reply contains the first
 * seven fields together, or none of them.
 */
struct sockdiag_memory {
    struct sockdiag_number receive_queue;        /* Memory in use by the receive queue, in bytes
                                                    (SK_MEMINFO_RMEM_ALLOC, at 0). */
    struct sockdiag_number receive_queue_max;    /* Receive buffer limit in bytes
                                                    (SK_MEMINFO_RCVBUF, at 4). */
    struct sockdiag_number bottom_send_queues;   /* Memory of packets committed to the device
                                                    queue, in bytes (SK_MEMINFO_WMEM_ALLOC, at
                                                    8). */
    struct sockdiag_number send_queue_max;       /* Send buffer limit in bytes
                                                    (SK_MEMINFO_SNDBUF, at 12). */
    struct sockdiag_number cache;                /* Memory that is allocated to the socket and
                                                    not in use, in bytes (SK_MEMINFO_FWD_ALLOC,
                                                    at 16). */
    struct sockdiag_number send_queue;           /* Memory in use by the send queue, in bytes
                                                    (SK_MEMINFO_WMEM_QUEUED, at 20). */
    struct sockdiag_number options;              /* Memory of the socket options, in bytes
                                                    (SK_MEMINFO_OPTMEM, at 24). */
    struct sockdiag_number backlog_queue_length; /* Memory of packets that wait while the socket
                                                    is locked, in bytes (SK_MEMINFO_BACKLOG, at
                                                    28). Older kernels do not send it. */
    struct sockdiag_number drops;                /* Number of dropped packets (SK_MEMINFO_DROPS,
                                                    at 32). Older kernels do not send it. */
};

/* ---- UNIX sockets */

/* Header of a reply about a UNIX socket: struct unix_diag_msg of sock_diag(7). */
struct sockdiag_unix_header {
    uint8_t kind;      /* Type of the socket, one of SOCK_.. (udiag_type, at 1). */
    uint8_t state;     /* State (udiag_state, at 2): TCP_LISTEN (10) if the socket listens,
                          TCP_ESTABLISHED (1) if it was connected, also if the peer has closed
                          since, or if it is a datagram socket to which another one connected,
                          else TCP_CLOSE (7), as of most datagram sockets. A datagram socket is
                          in state 7 again after a connect(2) to AF_UNSPEC. On Linux 5.10 every
                          datagram socket is in state 7, also one with a peer. */
    uint32_t inode;    /* Inode of the socket (udiag_ino, at 4). */
    uint8_t cookie[8]; /* Cookie that distinguishes sockets with the same inode (udiag_cookie, at
                          8). */
};

/*
 * Everything that a reply contains about a UNIX socket, except the connections that wait to be
 * accepted.
 */
struct sockdiag_unix_details {
    struct sockdiag_unix_header header; /* The header. */
    struct sockdiag_text name;          /* Name that the socket is bound to (UNIX_DIAG_NAME). */
    struct sockdiag_number file_inode;  /* Inode of the file that the socket is bound to
                                           (udiag_vfs_ino of UNIX_DIAG_VFS). */
    struct sockdiag_number file_device; /* Device of that file, major << 20 | minor
                                           (udiag_vfs_dev of UNIX_DIAG_VFS). It is not the st_dev
                                           of stat(2), which combines them in another way:
                                           compare major(st_dev) and minor(st_dev). */
    struct sockdiag_number peer;        /* Inode of the peer (UNIX_DIAG_PEER). */
    struct sockdiag_number recv_queue;  /* Number of connections that wait to be accepted on a
                                           listening socket, else number of bytes that have not
                                           been read (udiag_rqueue of UNIX_DIAG_RQLEN). For a
                                           datagram socket, it is the length of the first
                                           datagram in the queue. */
    struct sockdiag_number send_queue;  /* Limit of these connections for a listening socket,
                                           else bytes of memory in use by data that was sent and
                                           has not been read (udiag_wqueue of UNIX_DIAG_RQLEN). */
    struct sockdiag_memory memory;      /* Socket memory (UNIX_DIAG_MEMINFO). Linux counts sent
                                           data that was not yet read in bottom_send_queues, and
                                           send_queue is 0. */
    struct sockdiag_number shutdown;    /* Directions that are shut down: 1 for receiving, 2 for
                                           sending, 3 for both (UNIX_DIAG_SHUTDOWN). */
    struct sockdiag_number owner;       /* User id of the owner (UNIX_DIAG_UID). It is not set if
                                           the value does not have 4 bytes. */
};
#define SOCKDIAG_UNIX_DETAILS_SIZE_1_0 168

uint32_t sockdiag_unix_fill_details(const uint8_t *payload, size_t length,
                                    struct sockdiag_unix_details *details, uint8_t *later,
                                    size_t later_length);

/* Parses a reply about a UNIX socket. */
static inline uint32_t sockdiag_unix_get_details(const uint8_t *payload, size_t length,
                                                 struct sockdiag_unix_details *details, size_t size)
{
    if (size < SOCKDIAG_UNIX_DETAILS_SIZE_1_0)
        return SOCKDIAG_INVALID_ARGUMENT;
    return sockdiag_unix_fill_details(
        payload, length, details, (uint8_t *)details + SOCKDIAG_UNIX_DETAILS_SIZE_1_0,
        size - SOCKDIAG_UNIX_DETAILS_SIZE_1_0);
}

/* ---- IPv4 and IPv6 sockets */

/* Header of a reply about an IPv4 or IPv6 socket: struct inet_diag_msg of sock_diag(7). */
struct sockdiag_inet_header {
    uint8_t family;                  /* AF_INET or AF_INET6 (idiag_family, at 0). */
    uint8_t state;                   /* State, one of TCP_ESTABLISHED to TCP_CLOSING
                                        (idiag_state, at 1), but of an SCTP association a number
                                        of SCTP, such as 3 for established. The protocol is that
                                        of the request. The reply of an event has it in
                                        INET_DIAG_PROTOCOL. */
    uint8_t timer;                   /* Timer (idiag_timer, at 2). Of a TCP socket: 0 none, 1
                                        retransmission, 2 keepalive, 3 TIME_WAIT, 4 zero-window
                                        probe; 5 delayed acknowledgement, since Linux 7.2. Of an
                                        SCTP association: 0 none, or else its retransmission
                                        timer. */
    uint8_t retransmits;             /* Number of retransmissions if the timer is 1, of probes if
                                        it is 2 or 4 (idiag_retrans, at 3). */
    uint32_t expires;                /* Milliseconds until the timer expires (idiag_expires, at
                                        52). */
    uint16_t source_port;            /* Local port (idiag_sport, at 4). */
    uint16_t destination_port;       /* Remote port (idiag_dport, at 6). */
    uint8_t source_address[16];      /* Local address in network byte order (idiag_src, at 8).
                                        For AF_INET, four bytes followed by twelve zeros. */
    uint8_t destination_address[16]; /* Remote address, in the same format (idiag_dst, at 24). */
    uint32_t interface_id;           /* Index of the interface that the socket is bound to, or 0
                                        (idiag_if, at 40). */
    uint8_t cookie[8];               /* Cookie that distinguishes sockets with the same addresses
                                        and ports (idiag_cookie, at 44). */
    uint32_t recv_queue;             /* Number of pending connections of a listening TCP or MPTCP
                                        socket, and of an SCTP socket that is no association
                                        (idiag_rqueue, at 56). For other TCP sockets, number of
                                        bytes that have not been read; a FIN counts as one. For
                                        UDP and raw sockets, other MPTCP sockets and SCTP
                                        associations, memory in use by the receive queue in
                                        bytes, which exceeds the data. */
    uint32_t send_queue;             /* Limit of pending connections (backlog) of a listening TCP
                                        or MPTCP socket, and of an SCTP socket that is no
                                        association (idiag_wqueue, at 60). For other TCP sockets,
                                        number of bytes that are not yet acknowledged; a SYN and
                                        a FIN count as one each. For UDP and raw sockets, other
                                        MPTCP sockets and SCTP associations, memory in use by
                                        packets that are being sent, in bytes. */
    uint32_t uid;                    /* User id of the owner (idiag_uid, at 64). */
    uint32_t inode;                  /* Inode of the socket (idiag_inode, at 68). */
};

/*
 * Memory of an IPv4 or IPv6 socket in the format of old kernels: struct inet_diag_meminfo of
 * linux/inet_diag.h. The fields are those of struct sockdiag_memory with the same names.
 */
struct sockdiag_legacy_memory {
    uint32_t receive_queue;      /* Memory in use by the receive queue, in bytes (idiag_rmem, at
                                    0). */
    uint32_t send_queue;         /* Memory in use by the send queue, in bytes (idiag_wmem, at 4). */
    uint32_t cache;              /* Memory that is allocated to the socket and not in use, in
                                    bytes (idiag_fmem, at 8). */
    uint32_t bottom_send_queues; /* Memory of packets committed to the device queue, in bytes
                                    (idiag_tmem, at 12). */
};

/* The options of an IPv4 or IPv6 socket. */
enum sockdiag_socket_option {
    SOCKDIAG_OPTION_RECV_ERR = 1,               /* IP_RECVERR: recverr, bit 0. */
    SOCKDIAG_OPTION_IS_ICSK = 2,                /* The socket is of a connection-oriented
                                                   protocol: is_icsk, bit 1. */
    SOCKDIAG_OPTION_FREE_BIND = 4,              /* IP_FREEBIND: freebind, bit 2. */
    SOCKDIAG_OPTION_HDR_INCL = 8,               /* IP_HDRINCL: hdrincl, bit 3. */
    SOCKDIAG_OPTION_MC_LOOP = 16,               /* IP_MULTICAST_LOOP: mc_loop, bit 4. */
    SOCKDIAG_OPTION_TRANSPARENT = 32,           /* IP_TRANSPARENT: transparent, bit 5. */
    SOCKDIAG_OPTION_MC_ALL = 64,                /* IP_MULTICAST_ALL: mc_all, bit 6. */
    SOCKDIAG_OPTION_NO_DEFRAG = 128,            /* IP_NODEFRAG: nodefrag, bit 7. */
    SOCKDIAG_OPTION_BIND_ADDRESS_NO_PORT = 256, /* IP_BIND_ADDRESS_NO_PORT: bind_address_no_port,
                                                   bit 0 of the second byte. */
    SOCKDIAG_OPTION_RECV_ERR_RFC4884 = 512,     /* IP_RECVERR_RFC4884: recverr_rfc4884, bit 1 of
                                                   the second byte. */
    SOCKDIAG_OPTION_DEFER_CONNECT = 1024        /* connect is deferred until data is written, by
                                                   TCP_FASTOPEN_CONNECT: defer_connect, bit 2 of
                                                   the second byte. */
};

/*
 * What a reply contains about an IPv4 or IPv6 socket. sockdiag_inet_get_tcp_info and
 * sockdiag_inet_get_mptcp_info return its connection (INET_DIAG_INFO), and sockdiag_next_attribute
 * all other attributes without a field.
 */
struct sockdiag_inet_details {
    struct sockdiag_inet_header header;          /* The header. */
    struct sockdiag_text congestion;             /* Name of the congestion control algorithm
                                                    (INET_DIAG_CONG). */
    struct sockdiag_number tos;                  /* Type of service (INET_DIAG_TOS). */
    struct sockdiag_number tclass;               /* Traffic class of an IPv6 socket
                                                    (INET_DIAG_TCLASS). */
    struct sockdiag_number shutdown;             /* Directions that are shut down: 1 for
                                                    receiving, 2 for sending, 3 for both
                                                    (INET_DIAG_SHUTDOWN). */
    struct sockdiag_number protocol;             /* Protocol, one of IPPROTO_..
                                                    (INET_DIAG_PROTOCOL), in events and of raw
                                                    sockets. */
    struct sockdiag_number v6only;               /* 1 if the socket is for IPv6 only, else 0
                                                    (INET_DIAG_SKV6ONLY). */
    struct sockdiag_number mark;                 /* Mark of the socket, SO_MARK (INET_DIAG_MARK). */
    struct sockdiag_number class_id;             /* Traffic class id (net_cls) of the socket's
                                                    control group, or the priority of a socket
                                                    without one (INET_DIAG_CLASS_ID). */
    struct sockdiag_memory memory;               /* Socket memory (INET_DIAG_SKMEMINFO). */
    uint32_t has_legacy_memory;                  /* 1 if legacy_memory is set, else 0. */
    struct sockdiag_legacy_memory legacy_memory; /* Socket memory in the format of old kernels
                                                    (INET_DIAG_MEMINFO). */
    uint32_t has_cgroup_id;                      /* 1 if cgroup_id is set, else 0. */
    uint64_t cgroup_id;                          /* Id of the control group, cgroup v2
                                                    (INET_DIAG_CGROUP_ID). It is not set if the
                                                    value does not have 8 bytes. */
    struct sockdiag_number options;              /* Options of the socket, bits
                                                    SOCKDIAG_OPTION_.. (INET_DIAG_SOCKOPT). They
                                                    are not set if the value has fewer than 2
                                                    bytes. */
};
#define SOCKDIAG_INET_DETAILS_SIZE_1_0 264

uint32_t sockdiag_inet_fill_details(const uint8_t *payload, size_t length,
                                    struct sockdiag_inet_details *details, uint8_t *later,
                                    size_t later_length);

/*
 * Parses a reply about an IPv4 or IPv6 socket. INET_DIAG_INFO is checked, and not returned:
 * sockdiag_inet_get_tcp_info returns it.
 */
static inline uint32_t sockdiag_inet_get_details(const uint8_t *payload, size_t length,
                                                 struct sockdiag_inet_details *details, size_t size)
{
    if (size < SOCKDIAG_INET_DETAILS_SIZE_1_0)
        return SOCKDIAG_INVALID_ARGUMENT;
    return sockdiag_inet_fill_details(
        payload, length, details, (uint8_t *)details + SOCKDIAG_INET_DETAILS_SIZE_1_0,
        size - SOCKDIAG_INET_DETAILS_SIZE_1_0);
}

/*
 * The state of a TCP connection: struct tcp_info of linux/tcp.h in Linux 7.2. Later versions of
 * this header append fields.
 */
struct sockdiag_tcp_info {
    uint8_t state;                     /* TCP state (tcpi_state), TCP_ESTABLISHED to TCP_CLOSING,
                                          at offset 0. */
    uint8_t ca_state;                  /* State of congestion control (tcpi_ca_state),
                                          TCP_CA_OPEN to TCP_CA_LOSS, at offset 1. */
    uint8_t retransmits;               /* Number of times that the retransmission timer has
                                          retransmitted the oldest segment (tcpi_retransmits), at
                                          offset 2. */
    uint8_t probes;                    /* Number of unanswered zero-window or keepalive probes
                                          (tcpi_probes), at offset 3. */
    uint8_t backoff;                   /* Number of times that the timer was doubled, by
                                          exponential backoff (tcpi_backoff), at offset 4. */
    uint8_t options;                   /* Options of the connection (tcpi_options), bits
                                          TCPI_OPT_*, at offset 5. */
    uint8_t wscale;                    /* Window scale shifts, at offset 6: tcpi_snd_wscale in
                                          bits 0 to 3, tcpi_rcv_wscale in bits 4 to 7. */
    uint8_t delivery_rate_app_limited; /* Bit fields at offset 7. Bit 0 is set if the sending
                                          program limits delivery_rate
                                          (tcpi_delivery_rate_app_limited). Bits 1 and 2 are
                                          tcpi_fastopen_client_fail. */
    uint32_t rto;                      /* Retransmission timeout in microseconds (tcpi_rto), at
                                          offset 8. */
    uint32_t ato;                      /* Timeout of delayed acknowledgements in microseconds
                                          (tcpi_ato), at offset 12. */
    uint32_t snd_mss;                  /* Maximum size of sent segments in bytes (tcpi_snd_mss),
                                          at offset 16. */
    uint32_t rcv_mss;                  /* Estimated maximum size of received segments in bytes
                                          (tcpi_rcv_mss), at offset 20. */
    uint32_t unacked;                  /* Number of segments that are sent and not acknowledged
                                          (tcpi_unacked), at offset 24. For a listening socket,
                                          the number of pending connections. */
    uint32_t sacked;                   /* Number of segments that are selectively acknowledged
                                          (tcpi_sacked), at offset 28. For a listening socket,
                                          the backlog limit. */
    uint32_t lost;                     /* Number of segments that are considered lost
                                          (tcpi_lost), at offset 32. */
    uint32_t retrans;                  /* Number of retransmitted segments in flight
                                          (tcpi_retrans), at offset 36. */
    uint32_t fackets;                  /* Number of segments up to the highest one that is
                                          selectively acknowledged (tcpi_fackets), at offset 40.
                                          Newer kernels write 0. */
    uint32_t last_data_sent;           /* Time since data was last sent, in milliseconds
                                          (tcpi_last_data_sent), at offset 44. */
    uint32_t last_ack_sent;            /* Time since an acknowledgement was last sent
                                          (tcpi_last_ack_sent), at offset 48. The kernel does not
                                          record it, and writes 0. */
    uint32_t last_data_recv;           /* Time since data was last received, in milliseconds
                                          (tcpi_last_data_recv), at offset 52. */
    uint32_t last_ack_recv;            /* Time since an acknowledgement was last received, in
                                          milliseconds (tcpi_last_ack_recv), at offset 56. */
    uint32_t pmtu;                     /* Path MTU in bytes (tcpi_pmtu), at offset 60. */
    uint32_t rcv_ssthresh;             /* Current limit on the growth of the receive window, in
                                          bytes (tcpi_rcv_ssthresh), at offset 64. */
    uint32_t rtt;                      /* Smoothed round-trip time in microseconds (tcpi_rtt), at
                                          offset 68. */
    uint32_t rttvar;                   /* Mean deviation of the round-trip time in microseconds
                                          (tcpi_rttvar), at offset 72. */
    uint32_t snd_ssthresh;             /* Slow start threshold in segments (tcpi_snd_ssthresh),
                                          at offset 76. */
    uint32_t snd_cwnd;                 /* Congestion window in segments (tcpi_snd_cwnd), at
                                          offset 80. */
    uint32_t advmss;                   /* Maximum segment size that was advertised to the peer,
                                          in bytes (tcpi_advmss), at offset 84. */
    uint32_t reordering;               /* Reordering metric in segments (tcpi_reordering), at
                                          offset 88: how far segments may be out of order before
                                          one is considered lost. */
    uint32_t rcv_rtt;                  /* Round-trip time that the receiver estimates, in
                                          microseconds (tcpi_rcv_rtt), at offset 92. */
    uint32_t rcv_space;                /* Space that receive buffer auto-tuning provides for, in
                                          bytes (tcpi_rcv_space), at offset 96. */
    uint32_t total_retrans;            /* Total number of retransmitted segments
                                          (tcpi_total_retrans), at offset 100. */
    uint64_t pacing_rate;              /* Pacing rate in bytes per second (tcpi_pacing_rate), at
                                          offset 104. */
    uint64_t max_pacing_rate;          /* Limit on the pacing rate in bytes per second
                                          (tcpi_max_pacing_rate), at offset 112. */
    uint64_t bytes_acked;              /* Number of acknowledged bytes (tcpi_bytes_acked), at
                                          offset 120. A FIN counts as one byte, and so does the
                                          SYN of the socket that called connect(2). */
    uint64_t bytes_received;           /* Number of bytes that were received in order
                                          (tcpi_bytes_received), at offset 128. A FIN counts as
                                          one byte. */
    uint32_t segs_out;                 /* Number of sent segments (tcpi_segs_out), at offset 136. */
    uint32_t segs_in;                  /* Number of received segments (tcpi_segs_in), at offset
                                          140. */
    uint32_t notsent_bytes;            /* Number of bytes in the send queue that are not yet sent
                                          (tcpi_notsent_bytes), at offset 144. */
    uint32_t min_rtt;                  /* Minimum round-trip time in microseconds (tcpi_min_rtt),
                                          at offset 148. */
    uint32_t data_segs_in;             /* Number of received segments with data
                                          (tcpi_data_segs_in), at offset 152. */
    uint32_t data_segs_out;            /* Number of sent segments with data (tcpi_data_segs_out),
                                          at offset 156. */
    uint64_t delivery_rate;            /* Most recent rate at which data was delivered to the
                                          peer, in bytes per second (tcpi_delivery_rate), at
                                          offset 160. */
    uint64_t busy_time;                /* Time with data to send, in microseconds
                                          (tcpi_busy_time), at offset 168. */
    uint64_t rwnd_limited;             /* Part of the busy time in which the peer's receive
                                          window was the limit, in microseconds
                                          (tcpi_rwnd_limited), at offset 176. */
    uint64_t sndbuf_limited;           /* Part of the busy time in which the send buffer was the
                                          limit, in microseconds (tcpi_sndbuf_limited), at offset
                                          184. */
    uint32_t delivered;                /* Number of segments that were delivered to the peer,
                                          including retransmitted ones (tcpi_delivered), at
                                          offset 192. */
    uint32_t delivered_ce;             /* Number of delivered segments that the peer reported as
                                          marked for congestion, by ECN (tcpi_delivered_ce), at
                                          offset 196. */
    uint64_t bytes_sent;               /* Number of sent bytes of data, including retransmitted
                                          ones (tcpi_bytes_sent), at offset 200. */
    uint64_t bytes_retrans;            /* Number of retransmitted bytes of data
                                          (tcpi_bytes_retrans), at offset 208. */
    uint32_t dsack_dups;               /* Number of segments that the peer reported as received
                                          twice, by DSACK (tcpi_dsack_dups), at offset 216. */
    uint32_t reord_seen;               /* Number of times that reordering was observed
                                          (tcpi_reord_seen), at offset 220. */
    uint32_t rcv_ooopack;              /* Number of segments that were received out of order
                                          (tcpi_rcv_ooopack), at offset 224. */
    uint32_t snd_wnd;                  /* Receive window that the peer advertises, after scaling,
                                          in bytes (tcpi_snd_wnd), at offset 228. */
    uint32_t rcv_wnd;                  /* The receive window that the local end advertises, after
                                          scaling, in bytes. tcpi_rcv_wnd at 232. */
    uint32_t rehash;                   /* Number of attempts to take another path by a new flow
                                          hash, after a timeout or by PLB (protective load
                                          balancing). tcpi_rehash at 236. */
    uint16_t total_rto;                /* Total number of retransmission timeouts, including
                                          timeouts of SYN and SYN-ACK segments. tcpi_total_rto at
                                          240. */
    uint16_t total_rto_recoveries;     /* Total number of recoveries after a retransmission
                                          timeout, including an unfinished one.
                                          tcpi_total_rto_recoveries at 242. */
    uint32_t total_rto_time;           /* Total time spent in these recoveries, including an
                                          unfinished one, in milliseconds. tcpi_total_rto_time at
                                          244. */
    uint32_t received_ce;              /* Number of received segments with the ECN mark CE
                                          (congestion experienced). tcpi_received_ce at 248. */
    uint32_t delivered_e1_bytes;       /* Number of bytes delivered to the peer with the ECN mark
                                          ECT(1). tcpi_delivered_e1_bytes at 252. */
    uint32_t delivered_e0_bytes;       /* Number of bytes delivered to the peer with the ECN mark
                                          ECT(0). tcpi_delivered_e0_bytes at 256. */
    uint32_t delivered_ce_bytes;       /* Number of bytes delivered to the peer with the ECN mark
                                          CE. tcpi_delivered_ce_bytes at 260. */
    uint32_t received_e1_bytes;        /* Number of bytes received with the ECN mark ECT(1).
                                          tcpi_received_e1_bytes at 264. */
    uint32_t received_e0_bytes;        /* Number of bytes received with the ECN mark ECT(0).
                                          tcpi_received_e0_bytes at 268. */
    uint32_t received_ce_bytes;        /* Number of bytes received with the ECN mark CE.
                                          tcpi_received_ce_bytes at 272. */
    uint32_t ecn_mode : 2;             /* How ECN is used: 0 not at all, 1 as in RFC 3168, 2
                                          accurate ECN, 3 not negotiated yet. It is also 0 from
                                          kernels before Linux 7.0, with and without ECN.
                                          tcpi_ecn_mode at 276, bits 0 and 1. */
    uint32_t accecn_opt_seen : 2;      /* Which TCP options of accurate ECN were seen.
                                          tcpi_accecn_opt_seen at 276, bits 2 and 3. */
    uint32_t accecn_fail_mode : 4;     /* Bits for the ways in which accurate ECN failed.
                                          tcpi_accecn_fail_mode at 276, bits 4 to 7. */
    uint32_t options2 : 24;            /* More options of the connection. tcpi_options2 at 276,
                                          bits 8 to 31. */
};

/*
 * Returns whether the value contains the bytes of a field of the struct info. value_length is the
 * number that sockdiag_inet_get_tcp_info or sockdiag_inet_get_mptcp_info has stored. Older kernels
 * send padding in place of some fields of struct sockdiag_mptcp_info, as their comments say. Bit
 * fields, which this macro does not take, are 0 if the kernel did not send them.
 */
#define SOCKDIAG_HAS(value_length, info, field)                                                   \
    ((value_length) >= (size_t)((const char *)&(info).field - (const char *)&(info))              \
                           + sizeof((info).field))

/*
 * Copies the TCP connection of a reply about an IPv4 or IPv6 socket: the value of the first
 * INET_DIAG_INFO. info_size is sizeof *info: at most as many bytes are copied, and the remaining
 * ones are set to 0. Stores the length of the value in bytes. Returns SOCKDIAG_END if the reply has
 * no value, or one of length 0; then nothing is stored.
 *
 * Each kernel sends the struct in its own length, which may also be longer: SOCKDIAG_HAS tests
 * whether the value contains a field. A value of any length above 0 is accepted, also one that
 * sockdiag_inet_get_details rejects. Attributes after a framing error are not found.
 *
 * A time that the kernel has not measured has its first value: rtt of a socket that listens is 0,
 * and in the state TCP_SYN_SENT rtt is 0, rttvar 250000 and min_rtt 4294967295.
 *
 * If the protocol that was requested is not TCP, the value is another struct, struct mptcp_info or
 * struct sctp_info.
 */
uint32_t sockdiag_inet_get_tcp_info(const uint8_t *payload, size_t length,
                                    struct sockdiag_tcp_info *info, size_t info_size,
                                    size_t *value_length);

/*
 * The state of an MPTCP connection: struct mptcp_info of linux/mptcp.h in Linux 7.2. Later versions
 * of this header append fields.
 */
struct sockdiag_mptcp_info {
    uint8_t subflows;              /* Number of subflows in addition to the first one.
                                      mptcpi_subflows at 0. */
    uint8_t add_addr_signal;       /* Number of local addresses that were announced to the peer
                                      (ADD_ADDR). mptcpi_add_addr_signal at 1. */
    uint8_t add_addr_accepted;     /* Number of addresses that the peer announced and that were
                                      accepted. mptcpi_add_addr_accepted at 2. */
    uint8_t subflows_max;          /* Limit of mptcpi_subflows. mptcpi_subflows_max at 3. */
    uint8_t add_addr_signal_max;   /* Number of endpoints whose addresses are announced, those
                                      with the flag signal of ip-mptcp(8).
                                      mptcpi_add_addr_signal_max at 4. */
    uint8_t add_addr_accepted_max; /* Limit of mptcpi_add_addr_accepted.
                                      mptcpi_add_addr_accepted_max at 5. */
    uint32_t flags;                /* Flags of the connection, bits MPTCP_INFO_FLAG_...
                                      mptcpi_flags at 8. */
    uint32_t token;                /* Token of the connection at the local end. mptcpi_token at
                                      12. */
    uint64_t write_seq;            /* Sequence number of the connection for the next byte that is
                                      written. mptcpi_write_seq at 16. */
    uint64_t snd_una;              /* First sequence number that the peer did not acknowledge.
                                      mptcpi_snd_una at 24. */
    uint64_t rcv_nxt;              /* Sequence number of the next byte that is expected from the
                                      peer. mptcpi_rcv_nxt at 32. */
    uint8_t local_addr_used;       /* Number of local addresses that are in use for subflows.
                                      mptcpi_local_addr_used at 40. */
    uint8_t local_addr_max;        /* Number of endpoints from which subflows are opened, those
                                      with the flag subflow of ip-mptcp(8). mptcpi_local_addr_max
                                      at 41. */
    uint8_t csum_enabled;          /* 1 if data has checksums, else 0. mptcpi_csum_enabled at 42. */
    uint32_t retransmits;          /* Number of retransmissions of the end of the data
                                      (DATA_FIN). mptcpi_retransmits at 44. A value of 48 bytes,
                                      from a kernel without this field, has padding there. */
    uint64_t bytes_retrans;        /* Number of bytes that the connection retransmitted, on any
                                      subflow. What TCP retransmits on its subflow is not
                                      counted. mptcpi_bytes_retrans at 48. */
    uint64_t bytes_sent;           /* Number of bytes sent, without retransmitted bytes.
                                      mptcpi_bytes_sent at 56. */
    uint64_t bytes_received;       /* Number of bytes received. mptcpi_bytes_received at 64. */
    uint64_t bytes_acked;          /* Number of sent bytes that the peer acknowledged. The end of
                                      the data (DATA_FIN) counts as one byte. mptcpi_bytes_acked
                                      at 72. */
    uint8_t subflows_total;        /* Number of subflows, including the first one.
                                      mptcpi_subflows_total at 80. */
    uint8_t endp_laminar_max;      /* Number of endpoints with the flag laminar.
                                      mptcpi_endp_laminar_max at 81. It is 0 from kernels without
                                      this field. */
    uint8_t endp_fullmesh_max;     /* Number of endpoints with the flag fullmesh.
                                      mptcpi_endp_fullmesh_max at 82. It is 0 from kernels
                                      without this field. */
    uint32_t last_data_sent;       /* Time since data was sent, in milliseconds.
                                      mptcpi_last_data_sent at 84. A value of 88 bytes, from a
                                      kernel without this field, has padding there. */
    uint32_t last_data_recv;       /* Time since data was received, in milliseconds.
                                      mptcpi_last_data_recv at 88. */
    uint32_t last_ack_recv;        /* Time since an acknowledgement was received, in
                                      milliseconds. mptcpi_last_ack_recv at 92. */
};

/*
 * Copies the MPTCP connection of a reply to a request for MPTCP, as sockdiag_inet_get_tcp_info
 * copies that of TCP. All fields of a socket that listens are 0, except subflows_max of Linux 6.1.
 */
uint32_t sockdiag_inet_get_mptcp_info(const uint8_t *payload, size_t length,
                                      struct sockdiag_mptcp_info *info, size_t info_size,
                                      size_t *value_length);

/* ---- netlink, packet, vsock and XDP sockets */

/* The header of a reply about a netlink socket: struct netlink_diag_msg of linux/netlink_diag.h. */
struct sockdiag_netlink_header {
    uint8_t kind;               /* Socket type (ndiag_type), SOCK_RAW (3) or SOCK_DGRAM (2), at
                                   offset 1. */
    uint8_t protocol;           /* Protocol (ndiag_protocol), NETLINK_* of linux/netlink.h, at
                                   offset 2. */
    uint8_t state;              /* State (ndiag_state), 1 if the socket is connected to another
                                   one, at offset 3. */
    uint32_t port;              /* Port id of the socket (ndiag_portid), at offset 4. The kernel
                                   has port id 0. */
    uint32_t destination_port;  /* Port id of the socket that this one is connected to
                                   (ndiag_dst_portid), at offset 8. */
    uint32_t destination_group; /* Number of the multicast group that the socket is connected to
                                   (ndiag_dst_group), at offset 12. It is one group's number, not
                                   a mask; 0 means none. */
    uint32_t inode;             /* Inode number of the socket (ndiag_ino), at offset 16. */
    uint64_t cookie;            /* Cookie that distinguishes sockets with the same inode number
                                   (ndiag_cookie), at offset 20. */
};

/*
 * What a reply contains about a netlink socket, by the attributes of linux/netlink_diag.h, except
 * the rings NETLINK_DIAG_RX_RING and NETLINK_DIAG_TX_RING, which Linux 4.6 removed. Attributes
 * without a field are not an error: sockdiag_next_attribute returns them.
 */
struct sockdiag_netlink_details {
    struct sockdiag_netlink_header header; /* The header. */
    struct sockdiag_memory memory;         /* Socket memory (NETLINK_DIAG_MEMINFO, type 0). */
    struct sockdiag_text groups;           /* Groups that the socket is a member of, one bit
                                              each; group 1 is the lowest bit of the first byte
                                              (NETLINK_DIAG_GROUPS, type 1). The kind of the text
                                              is SOCKDIAG_BYTES. */
    struct sockdiag_number flags;          /* The bits NDIAG_FLAG_.. (NETLINK_DIAG_FLAGS, type
                                              4). */
};
#define SOCKDIAG_NETLINK_DETAILS_SIZE_1_0 136

uint32_t sockdiag_netlink_fill_details(const uint8_t *payload, size_t length,
                                       struct sockdiag_netlink_details *details, uint8_t *later,
                                       size_t later_length);

/*
 * Parses a reply about a netlink socket. Linux lists a netlink socket twice if it is a member of a
 * group.
 */
static inline uint32_t sockdiag_netlink_get_details(const uint8_t *payload, size_t length,
                                                    struct sockdiag_netlink_details *details,
                                                    size_t size)
{
    if (size < SOCKDIAG_NETLINK_DETAILS_SIZE_1_0)
        return SOCKDIAG_INVALID_ARGUMENT;
    return sockdiag_netlink_fill_details(
        payload, length, details, (uint8_t *)details + SOCKDIAG_NETLINK_DETAILS_SIZE_1_0,
        size - SOCKDIAG_NETLINK_DETAILS_SIZE_1_0);
}

/* The header of a reply about a packet socket: struct packet_diag_msg of linux/packet_diag.h. */
struct sockdiag_packet_header {
    uint8_t kind;      /* Socket type (pdiag_type), SOCK_*, at offset 1. */
    uint16_t protocol; /* Protocol (pdiag_num), ETH_P_* of linux/if_ether.h, at offset 2. It is
                          not in network byte order. */
    uint32_t inode;    /* Inode number of the socket (pdiag_ino), at offset 4. */
    uint64_t cookie;   /* Cookie that distinguishes sockets with the same inode number
                          (pdiag_cookie), at offset 8. */
};

/*
 * Settings of a packet socket: struct packet_diag_info of linux/packet_diag.h. linux/if_packet.h
 * has the socket options.
 */
struct sockdiag_packet_info {
    uint32_t interface;      /* Index of the interface that the socket is bound to (pdi_index),
                                at offset 0. 0 means all interfaces. */
    uint32_t version;        /* Version of the ring's frame format (pdi_version), TPACKET_V*, at
                                offset 4. */
    uint32_t reserve;        /* Headroom that is reserved in a frame of the ring, in bytes
                                (pdi_reserve, option PACKET_RESERVE), at offset 8. */
    uint32_t copy_threshold; /* Copy threshold (pdi_copy_thresh, option PACKET_COPY_THRESH), at
                                offset 12. If it is not 0, a packet that is longer than a frame
                                of the ring is also copied to the receive queue. */
    uint32_t timestamp;      /* Type of the timestamps (pdi_tstamp, option PACKET_TIMESTAMP), at
                                offset 16. */
    uint32_t flags;          /* Flags (pdi_flags), bits PDI_*, at offset 20. */
};

/*
 * A ring that a packet socket shares with its program: struct packet_diag_ring of
 * linux/packet_diag.h.
 */
struct sockdiag_packet_ring {
    uint32_t block_size;     /* Size of a block in bytes (pdr_block_size), at offset 0. */
    uint32_t blocks;         /* Number of blocks (pdr_block_nr), at offset 4. */
    uint32_t frame_size;     /* Size of a frame in bytes (pdr_frame_size), at offset 8. */
    uint32_t frames;         /* Number of frames (pdr_frame_nr), at offset 12. */
    uint32_t retire_timeout; /* Time after which a block that is not full is passed to the
                                program, in milliseconds (pdr_retire_tmo), at offset 16. */
    uint32_t private_size;   /* Size of the program's private area in a block, in bytes
                                (pdr_sizeof_priv), at offset 20. */
    uint32_t features;       /* Features (pdr_features), bits TP_FT_*, at offset 24. */
};

/*
 * Everything that a reply contains about a packet socket, by the attributes of linux/packet_diag.h.
 */
struct sockdiag_packet_details {
    struct sockdiag_packet_header header;     /* The header. */
    uint32_t has_info;                        /* 1 if info is set, else 0. */
    struct sockdiag_packet_info info;         /* Settings of the socket (PACKET_DIAG_INFO, type
                                                 0). */
    struct sockdiag_text memberships;         /* Memberships of the socket
                                                 (PACKET_ADD_MEMBERSHIP, packet(7);
                                                 PACKET_DIAG_MCLIST, type 1), 44 bytes each,
                                                 which sockdiag_next_membership reads: addresses
                                                 that it also receives, and promiscuous or
                                                 all-multicast mode, which have no address. The
                                                 kind of the text is SOCKDIAG_BYTES. */
    uint32_t has_receive_ring;                /* 1 if receive_ring is set, else 0. */
    struct sockdiag_packet_ring receive_ring; /* Receive ring (PACKET_DIAG_RX_RING, type 2). */
    uint32_t has_send_ring;                   /* 1 if send_ring is set, else 0. */
    struct sockdiag_packet_ring send_ring;    /* Transmit ring (PACKET_DIAG_TX_RING, type 3). */
    struct sockdiag_number fanout;            /* Id of the fanout group in the low 16 bits, mode
                                                 in the high 16 bits (PACKET_DIAG_FANOUT, type
                                                 4). */
    struct sockdiag_number owner;             /* User id of the owner (PACKET_DIAG_UID, type 5). */
    struct sockdiag_memory memory;            /* Socket memory (PACKET_DIAG_MEMINFO, type 6). */
    struct sockdiag_text filter;              /* Instructions of the socket filter
                                                 (PACKET_DIAG_FILTER, type 7), 8 bytes each,
                                                 which sockdiag_next_instruction reads. The kind
                                                 of the text is SOCKDIAG_BYTES. */
};
#define SOCKDIAG_PACKET_DETAILS_SIZE_1_0 248

uint32_t sockdiag_packet_fill_details(const uint8_t *payload, size_t length,
                                      struct sockdiag_packet_details *details, uint8_t *later,
                                      size_t later_length);

/* Parses a reply about a packet socket. */
static inline uint32_t sockdiag_packet_get_details(const uint8_t *payload, size_t length,
                                                   struct sockdiag_packet_details *details,
                                                   size_t size)
{
    if (size < SOCKDIAG_PACKET_DETAILS_SIZE_1_0)
        return SOCKDIAG_INVALID_ARGUMENT;
    return sockdiag_packet_fill_details(
        payload, length, details, (uint8_t *)details + SOCKDIAG_PACKET_DETAILS_SIZE_1_0,
        size - SOCKDIAG_PACKET_DETAILS_SIZE_1_0);
}

/*
 * The header of a reply about a vsock socket: struct vsock_diag_msg of linux/vm_sockets_diag.h.
 * Linux sends no attributes after it.
 */
struct sockdiag_vsock_header {
    uint8_t kind;                 /* Socket type (vdiag_type), SOCK_*, at offset 1. */
    uint8_t state;                /* State (vdiag_state), TCP_*, at offset 2. */
    uint8_t shutdown;             /* Directions that the socket has shut down (vdiag_shutdown),
                                     at offset 3: 1 (RCV_SHUTDOWN) for receiving, 2
                                     (SEND_SHUTDOWN) for sending, 3 for both. */
    uint32_t source_context;      /* Context id of the socket (vdiag_src_cid), at offset 4. The
                                     host has context id 2. */
    uint32_t source_port;         /* Port of the socket (vdiag_src_port), at offset 8. */
    uint32_t destination_context; /* Context id of the peer (vdiag_dst_cid), at offset 12. */
    uint32_t destination_port;    /* Port of the peer (vdiag_dst_port), at offset 16. */
    uint32_t inode;               /* Inode number of the socket (vdiag_ino), at offset 20. */
    uint64_t cookie;              /* Cookie that distinguishes sockets with the same inode number
                                     (vdiag_cookie), at offset 24. */
};
#define SOCKDIAG_VSOCK_HEADER_SIZE_1_0 32

uint32_t sockdiag_vsock_fill_details(const uint8_t *payload, size_t length,
                                     struct sockdiag_vsock_header *details, uint8_t *later,
                                     size_t later_length);

/*
 * Parses a reply about a vsock socket. Linux sends no attributes: of bytes after the header only
 * the framing is checked.
 */
static inline uint32_t sockdiag_vsock_get_details(const uint8_t *payload, size_t length,
                                                  struct sockdiag_vsock_header *details,
                                                  size_t size)
{
    if (size < SOCKDIAG_VSOCK_HEADER_SIZE_1_0)
        return SOCKDIAG_INVALID_ARGUMENT;
    return sockdiag_vsock_fill_details(
        payload, length, details, (uint8_t *)details + SOCKDIAG_VSOCK_HEADER_SIZE_1_0,
        size - SOCKDIAG_VSOCK_HEADER_SIZE_1_0);
}

/* The header of a reply about an XDP socket: struct xdp_diag_msg of linux/xdp_diag.h. */
struct sockdiag_xdp_header {
    uint8_t kind;    /* Socket type (xdiag_type), SOCK_RAW (3), at offset 1. */
    uint32_t inode;  /* Inode number of the socket (xdiag_ino), at offset 4. */
    uint64_t cookie; /* Cookie that distinguishes sockets with the same inode number
                        (xdiag_cookie), at offset 8. */
};

/*
 * The interface and the queue that an XDP socket is bound to: struct xdp_diag_info of
 * linux/xdp_diag.h.
 */
struct sockdiag_xdp_info {
    uint32_t interface; /* Index of the interface (ifindex), at offset 0. */
    uint32_t queue;     /* Index of the interface's queue (queue_id), at offset 4. */
};

/*
 * The memory that an XDP socket shares with its program (UMEM): struct xdp_diag_umem of
 * linux/xdp_diag.h.
 */
struct sockdiag_xdp_umem {
    uint64_t size;       /* Size of the memory in bytes (size), at offset 0. */
    uint32_t id;         /* Id of the memory (id), at offset 8. */
    uint32_t pages;      /* Number of pages (num_pages), at offset 12. */
    uint32_t chunk_size; /* Size of a chunk in bytes (chunk_size), at offset 16. */
    uint32_t headroom;   /* Headroom of a chunk that the program reserves, in bytes (headroom),
                            at offset 20. */
    uint32_t interface;  /* Index of the interface that the memory is bound to (ifindex), at
                            offset 24. */
    uint32_t queue;      /* Index of the interface's queue (queue_id), at offset 28. */
    uint32_t flags;      /* Flags (flags), the bit XDP_DU_F_ZEROCOPY (1), at offset 32. */
    uint32_t references; /* Number of sockets that share the memory (refs), at offset 36. */
};

/* The counters of an XDP socket: struct xdp_diag_stats of linux/xdp_diag.h. */
struct sockdiag_xdp_statistics {
    uint64_t received_dropped; /* Number of received packets that were dropped for reasons other
                                  than the following (n_rx_dropped), at offset 0. */
    uint64_t received_invalid; /* Number of received packets that were dropped because of an
                                  invalid descriptor (n_rx_invalid), at offset 8. */
    uint64_t received_full;    /* Number of received packets that were dropped because the
                                  receive ring was full (n_rx_full), at offset 16. */
    uint64_t fill_ring_empty;  /* Number of times that a frame was needed and the fill ring was
                                  empty (n_fill_ring_empty), at offset 24. */
    uint64_t sent_invalid;     /* Number of packets that were not sent because of an invalid
                                  descriptor (n_tx_invalid), at offset 32. */
    uint64_t send_ring_empty;  /* Number of times that the transmit ring was found empty
                                  (n_tx_ring_empty), at offset 40. */
};

/* Everything that a reply contains about an XDP socket, by the attributes of linux/xdp_diag.h. */
struct sockdiag_xdp_details {
    struct sockdiag_xdp_header header;         /* The header. */
    uint32_t has_info;                         /* 1 if info is set, else 0. */
    struct sockdiag_xdp_info info;             /* Interface and queue that the socket is bound to
                                                  (XDP_DIAG_INFO, type 1). */
    struct sockdiag_number owner;              /* User id of the owner (XDP_DIAG_UID, type 2). */
    struct sockdiag_number receive_ring;       /* Number of entries of the receive ring
                                                  (XDP_DIAG_RX_RING, type 3). */
    struct sockdiag_number send_ring;          /* Number of entries of the transmit ring
                                                  (XDP_DIAG_TX_RING, type 4). */
    uint32_t has_umem;                         /* 1 if umem is set, else 0. */
    struct sockdiag_xdp_umem umem;             /* Memory that the socket shares with the
                                                  application (XDP_DIAG_UMEM, type 5). */
    struct sockdiag_number fill_ring;          /* Number of entries of the ring that passes
                                                  frames to the kernel (XDP_DIAG_UMEM_FILL_RING,
                                                  type 6). */
    struct sockdiag_number completion_ring;    /* Number of entries of the ring that returns
                                                  frames from the kernel
                                                  (XDP_DIAG_UMEM_COMPLETION_RING, type 7). */
    struct sockdiag_memory memory;             /* Socket memory (XDP_DIAG_MEMINFO, type 8). */
    uint32_t has_statistics;                   /* 1 if statistics is set, else 0. */
    struct sockdiag_xdp_statistics statistics; /* Counters of the socket (XDP_DIAG_STATS, type
                                                  9). */
};
#define SOCKDIAG_XDP_DETAILS_SIZE_1_0 240

uint32_t sockdiag_xdp_fill_details(const uint8_t *payload, size_t length,
                                   struct sockdiag_xdp_details *details, uint8_t *later,
                                   size_t later_length);

/* Parses a reply about an XDP socket. */
static inline uint32_t sockdiag_xdp_get_details(const uint8_t *payload, size_t length,
                                                struct sockdiag_xdp_details *details, size_t size)
{
    if (size < SOCKDIAG_XDP_DETAILS_SIZE_1_0)
        return SOCKDIAG_INVALID_ARGUMENT;
    return sockdiag_xdp_fill_details(
        payload, length, details, (uint8_t *)details + SOCKDIAG_XDP_DETAILS_SIZE_1_0,
        size - SOCKDIAG_XDP_DETAILS_SIZE_1_0);
}

/* ---- lenient calls
 *
 * end_line of the example list_sockets.c ends a line: prints the kinds of the attributes that are
 * rejected, with their errors:
 *
 *     static void end_line(const struct sockdiag_rejections *rejections) {
 *         unsigned kind;
 *         for (kind = 0; kind < SOCKDIAG_REJECTION_KINDS; kind++) {
 *             const uint32_t error = rejections->errors[kind];
 *             if (error != 0)
 *                 printf(" rejected %u (%s)", kind, sockdiag_error_text(error));
 *         }
 *         if (rejections->framing != 0)
 *             printf(" rejected (%s)", sockdiag_error_text(rejections->framing));
 *         putchar('\n');
 *     }
 */

#define SOCKDIAG_REJECTION_KINDS 32 /* Number of elements of errors of struct
                                       sockdiag_rejections, and so the end of a loop over them.
                                       Each kind of attribute that can be rejected is less. */

/*
 * Why attributes of a reply are rejected: codes of errors, as sockdiag_error_text takes them. A
 * code is 0 if there is no such error. If a reply has several attributes of a kind, the kind can
 * have a value in the details and an error here: the value is that of the first valid attribute,
 * and the error that of the first rejected one. The index of an element of errors is a kind of
 * attribute, whose meaning depends on the family of the reply. The kinds that can be rejected are:
 * - UNIX sockets: 0 to 6, from UNIX_DIAG_NAME to UNIX_DIAG_SHUTDOWN;
 * - IPv4 and IPv6 sockets: INET_DIAG_MEMINFO (1), INET_DIAG_INFO (2), INET_DIAG_CONG (4),
 *   INET_DIAG_TOS (5), INET_DIAG_TCLASS (6), INET_DIAG_SKMEMINFO (7), INET_DIAG_SHUTDOWN (8),
 *   INET_DIAG_PROTOCOL (10), INET_DIAG_SKV6ONLY (11), INET_DIAG_MARK (15) and INET_DIAG_CLASS_ID
 *   (17);
 * - netlink sockets: NETLINK_DIAG_MEMINFO (0) and NETLINK_DIAG_FLAGS (4) of linux/netlink_diag.h;
 * - packet sockets: 0 to 7, from PACKET_DIAG_INFO to PACKET_DIAG_FILTER of linux/packet_diag.h;
 * - vsock sockets: none;
 * - XDP sockets: 1 to 9, from XDP_DIAG_INFO to XDP_DIAG_STATS of linux/xdp_diag.h.
 */
struct sockdiag_rejections {
    uint32_t first;     /* Code of the first error, in the order of the bytes: the strict call
                           for this reply, a sockdiag_.._get_details, returns the same code. If
                           it is 0, both calls return the same details. */
    uint32_t framing;   /* Code of the framing error after the last attribute, 7 to 9. What
                           follows is not parsed. */
    uint8_t errors[32]; /* Codes of the errors of attributes. The index is the kind, below
                           SOCKDIAG_REJECTION_KINDS: for an IPv4 or IPv6 socket
                           errors[SOCKDIAG_INET_DIAG_INFO] is the error of the first
                           INET_DIAG_INFO that is rejected. sockdiag_next_attribute returns the
                           bytes of the attribute. */
};

uint32_t sockdiag_unix_fill_lenient_details(const uint8_t *payload, size_t length,
                                            struct sockdiag_unix_details *details, uint8_t *later,
                                            size_t later_length,
                                            struct sockdiag_rejections *rejections);

/* Parses a reply about a UNIX socket leniently. */
static inline uint32_t sockdiag_unix_get_lenient_details(const uint8_t *payload, size_t length,
                                                         struct sockdiag_unix_details *details,
                                                         size_t size,
                                                         struct sockdiag_rejections *rejections)
{
    if (size < SOCKDIAG_UNIX_DETAILS_SIZE_1_0)
        return SOCKDIAG_INVALID_ARGUMENT;
    return sockdiag_unix_fill_lenient_details(
        payload, length, details, (uint8_t *)details + SOCKDIAG_UNIX_DETAILS_SIZE_1_0,
        size - SOCKDIAG_UNIX_DETAILS_SIZE_1_0, rejections);
}

uint32_t sockdiag_inet_fill_lenient_details(const uint8_t *payload, size_t length,
                                            struct sockdiag_inet_details *details, uint8_t *later,
                                            size_t later_length,
                                            struct sockdiag_rejections *rejections);

/*
 * Parses a reply about an IPv4 or IPv6 socket leniently. An INET_DIAG_INFO of fewer than 232 bytes,
 * as of MPTCP, is in the rejections: sockdiag_inet_get_tcp_info and sockdiag_inet_get_mptcp_info
 * return a value of any length above 0.
 */
static inline uint32_t sockdiag_inet_get_lenient_details(const uint8_t *payload, size_t length,
                                                         struct sockdiag_inet_details *details,
                                                         size_t size,
                                                         struct sockdiag_rejections *rejections)
{
    if (size < SOCKDIAG_INET_DETAILS_SIZE_1_0)
        return SOCKDIAG_INVALID_ARGUMENT;
    return sockdiag_inet_fill_lenient_details(
        payload, length, details, (uint8_t *)details + SOCKDIAG_INET_DETAILS_SIZE_1_0,
        size - SOCKDIAG_INET_DETAILS_SIZE_1_0, rejections);
}

uint32_t sockdiag_netlink_fill_lenient_details(const uint8_t *payload, size_t length,
                                               struct sockdiag_netlink_details *details,
                                               uint8_t *later, size_t later_length,
                                               struct sockdiag_rejections *rejections);

/* Parses a reply about a netlink socket leniently. */
static inline uint32_t sockdiag_netlink_get_lenient_details(
    const uint8_t *payload, size_t length, struct sockdiag_netlink_details *details, size_t size,
    struct sockdiag_rejections *rejections)
{
    if (size < SOCKDIAG_NETLINK_DETAILS_SIZE_1_0)
        return SOCKDIAG_INVALID_ARGUMENT;
    return sockdiag_netlink_fill_lenient_details(
        payload, length, details, (uint8_t *)details + SOCKDIAG_NETLINK_DETAILS_SIZE_1_0,
        size - SOCKDIAG_NETLINK_DETAILS_SIZE_1_0, rejections);
}

uint32_t sockdiag_packet_fill_lenient_details(const uint8_t *payload, size_t length,
                                              struct sockdiag_packet_details *details,
                                              uint8_t *later, size_t later_length,
                                              struct sockdiag_rejections *rejections);

/* Parses a reply about a packet socket leniently. */
static inline uint32_t sockdiag_packet_get_lenient_details(const uint8_t *payload, size_t length,
                                                           struct sockdiag_packet_details *details,
                                                           size_t size,
                                                           struct sockdiag_rejections *rejections)
{
    if (size < SOCKDIAG_PACKET_DETAILS_SIZE_1_0)
        return SOCKDIAG_INVALID_ARGUMENT;
    return sockdiag_packet_fill_lenient_details(
        payload, length, details, (uint8_t *)details + SOCKDIAG_PACKET_DETAILS_SIZE_1_0,
        size - SOCKDIAG_PACKET_DETAILS_SIZE_1_0, rejections);
}

uint32_t sockdiag_vsock_fill_lenient_details(const uint8_t *payload, size_t length,
                                             struct sockdiag_vsock_header *details, uint8_t *later,
                                             size_t later_length,
                                             struct sockdiag_rejections *rejections);

/*
 * Parses a reply about a vsock socket leniently. The only rejection can be the framing error of
 * bytes after the header.
 */
static inline uint32_t sockdiag_vsock_get_lenient_details(const uint8_t *payload, size_t length,
                                                          struct sockdiag_vsock_header *details,
                                                          size_t size,
                                                          struct sockdiag_rejections *rejections)
{
    if (size < SOCKDIAG_VSOCK_HEADER_SIZE_1_0)
        return SOCKDIAG_INVALID_ARGUMENT;
    return sockdiag_vsock_fill_lenient_details(
        payload, length, details, (uint8_t *)details + SOCKDIAG_VSOCK_HEADER_SIZE_1_0,
        size - SOCKDIAG_VSOCK_HEADER_SIZE_1_0, rejections);
}

uint32_t sockdiag_xdp_fill_lenient_details(const uint8_t *payload, size_t length,
                                           struct sockdiag_xdp_details *details, uint8_t *later,
                                           size_t later_length,
                                           struct sockdiag_rejections *rejections);

/* Parses a reply about an XDP socket leniently. */
static inline uint32_t sockdiag_xdp_get_lenient_details(const uint8_t *payload, size_t length,
                                                        struct sockdiag_xdp_details *details,
                                                        size_t size,
                                                        struct sockdiag_rejections *rejections)
{
    if (size < SOCKDIAG_XDP_DETAILS_SIZE_1_0)
        return SOCKDIAG_INVALID_ARGUMENT;
    return sockdiag_xdp_fill_lenient_details(
        payload, length, details, (uint8_t *)details + SOCKDIAG_XDP_DETAILS_SIZE_1_0,
        size - SOCKDIAG_XDP_DETAILS_SIZE_1_0, rejections);
}

/* ---- checks without details */

#define SOCKDIAG_UNIX 1 /* Kind of a reply about a UNIX socket. */
#define SOCKDIAG_INET 2 /* Kind of a reply about an IPv4 or IPv6 socket. */

/* A reply about a UNIX, IPv4 or IPv6 socket. */
struct sockdiag_reply {
    uint32_t kind;                           /* SOCKDIAG_UNIX or SOCKDIAG_INET: which of the two
                                                headers is set. */
    struct sockdiag_unix_header unix_header; /* Header of a reply about a UNIX socket. */
    struct sockdiag_inet_header inet_header; /* Header of a reply about an IPv4 or IPv6 socket. */
};

/*
 * Checks a reply about a UNIX socket, as sockdiag_unix_get_details does, and stores its header
 * only.
 */
uint32_t sockdiag_check_unix_reply(const uint8_t *payload, size_t length,
                                   struct sockdiag_unix_header *header);

/*
 * Checks a reply about an IPv4 or IPv6 socket, as sockdiag_inet_get_details does, and stores its
 * header only.
 */
uint32_t sockdiag_check_inet_reply(const uint8_t *payload, size_t length,
                                   struct sockdiag_inet_header *header);

/*
 * Checks the payload of a message of this type, and stores the kind and the header of the reply.
 * The header of the other kind is unchanged. A family other than AF_UNIX, AF_INET and AF_INET6 is
 * SOCKDIAG_UNKNOWN_FAMILY.
 */
uint32_t sockdiag_check_message(const uint8_t *payload, size_t length, uint16_t message_type,
                                struct sockdiag_reply *reply);

/* ---- iteration */

/* Offsets of the attributes in a reply, where an iteration over them starts. */
#define SOCKDIAG_UNIX_ATTRIBUTES 16    /* Size of struct unix_diag_msg in bytes. */
#define SOCKDIAG_INET_ATTRIBUTES 72    /* Size of struct inet_diag_msg in bytes. */
#define SOCKDIAG_NETLINK_ATTRIBUTES 28 /* Size of struct netlink_diag_msg in bytes. */
#define SOCKDIAG_PACKET_ATTRIBUTES 16  /* Size of struct packet_diag_msg in bytes. */
#define SOCKDIAG_VSOCK_ATTRIBUTES 32   /* Size of struct vsock_diag_msg in bytes. */
#define SOCKDIAG_XDP_ATTRIBUTES 16     /* Size of struct xdp_diag_msg in bytes. */

/* State of an iteration. An iteration over all of the bytes starts with offset 0. */
struct sockdiag_cursor {
    size_t offset; /* Offset of the next item. No items are left if it is at or after the end of
                      the bytes. */
};

/* An attribute, struct nlattr, with the offset of its value in the bytes of the iteration. */
struct sockdiag_attribute {
    size_t offset;      /* Offset of the value. */
    size_t length;      /* Length of the value in bytes, without padding. */
    uint16_t type_word; /* Type field (nla_type): the kind, such as UNIX_DIAG_NAME. The two upper
                           bits are the flags NLA_F_NESTED and NLA_F_NET_BYTEORDER. */
};

/*
 * Stores the attribute at the cursor, and advances the cursor past it and its padding. The value of
 * the attribute is not checked. Returns one of:
 * - SOCKDIAG_ITEM if an attribute was stored;
 * - SOCKDIAG_END if no bytes are left, and then nothing is written;
 * - the code of the framing error at the cursor, 7 to 9; then the attribute is unchanged, and no
 *   bytes are left.
 *
 * In a checked reply, starting at the end of its header, the calls return each attribute, in order,
 * and then SOCKDIAG_END.
 */
uint32_t sockdiag_next_attribute(const uint8_t *bytes, size_t length,
                                 struct sockdiag_cursor *cursor,
                                 struct sockdiag_attribute *attribute);

/*
 * A message of a datagram, with the offset of its payload in the datagram, and the fields of its
 * header.
 */
struct sockdiag_message {
    size_t offset;            /* Offset of the payload. */
    size_t length;            /* Length of the payload in bytes, without padding: the length
                                 field (nlmsg_len) minus the 16 bytes of the header. */
    uint16_t message_type;    /* Message type (nlmsg_type): NLMSG_NOOP, NLMSG_ERROR, NLMSG_DONE
                                 or NLMSG_OVERRUN of netlink(7), or SOCK_DIAG_BY_FAMILY for a
                                 reply. sockdiag_next_message rejects the payload of any other
                                 type. */
    uint16_t flags;           /* The flags NLM_F_.. (nlmsg_flags). sockdiag_is_interrupted tests
                                 NLM_F_DUMP_INTR. */
    uint32_t sequence_number; /* Sequence number (nlmsg_seq); an answer repeats the number of its
                                 request. Only sockdiag_is_answer compares it. */
    uint32_t port_number;     /* Port id (nlmsg_pid); an answer of the kernel has the port id of
                                 the socket that sent the request. */
};

/*
 * Stores the message at the cursor, and advances the cursor past it and its padding. Returns one
 * of:
 * - SOCKDIAG_ITEM if the message has one of the four NLMSG_.. types, or is a reply that
 *   sockdiag_check_message accepts;
 * - SOCKDIAG_END if no bytes are left, and then nothing is written;
 * - the code of the first error of the payload of a message of any other type; the message is set,
 *   and the iteration may continue;
 * - the code of the framing error at the cursor, 16 to 18; then the message is unchanged, and no
 *   bytes are left.
 *
 * The end of a dump, NLMSG_DONE, does not end the iteration. The answer to a request without
 * NLM_F_DUMP is one message, and has no such end. Kernels put whole messages into a datagram: a
 * message that is split between two datagrams has a framing error in the first.
 */
uint32_t sockdiag_next_message(const uint8_t *datagram, size_t length,
                               struct sockdiag_cursor *cursor, struct sockdiag_message *message);

/*
 * Stores the message at the cursor, and advances the cursor past it and its padding. Returns one
 * of:
 * - SOCKDIAG_ITEM if a message was stored, whatever its type and its payload;
 * - SOCKDIAG_END if no bytes are left, and then nothing is written;
 * - the code of the framing error at the cursor, 16 to 18; then the message is unchanged, and no
 *   bytes are left. The rest of the datagram is lost, and with it possibly the end of the dump:
 *   request the dump again, on another socket, instead of waiting for its end.
 *
 * The payload is not checked. So a reply that is passed to sockdiag_unix_get_details or a similar
 * call is checked only once. A reply that such a call rejects does not end a dump: continue with
 * the next message.
 */
uint32_t sockdiag_next_any_message(const uint8_t *datagram, size_t length,
                                   struct sockdiag_cursor *cursor,
                                   struct sockdiag_message *message);

/*
 * Stores the error number at the start of the payload of an NLMSG_ERROR or NLMSG_DONE: 0 for
 * success, else -errno. If the payload has fewer than four bytes, the error is
 * SOCKDIAG_WRONG_LENGTH.
 *
 * An NLMSG_ERROR with 0 is an acknowledgement. A dump that failed also ends with NLMSG_DONE, so
 * look at the number there too. A kernel that lacks the protocol answers a request for it with
 * -ENOENT or -EINVAL. What follows the number is not returned: the request, and for a socket with
 * NETLINK_EXT_ACK more about the error, which sockdiag_find_error_attributes finds.
 */
uint32_t sockdiag_get_error_number(const uint8_t *payload, size_t length, int32_t *number);

/*
 * Sets the cursor to the attributes NLMSGERR_ATTR_.. of an extended acknowledgement, which say more
 * about an error (netlink(7)). The bytes are the payload of an NLMSG_ERROR or NLMSG_DONE, with the
 * message type and the flags of its header. Iterate over the attributes by sockdiag_next_attribute,
 * with the same bytes and this cursor. The kernel sends them to a socket with the option
 * NETLINK_EXT_ACK.
 *
 * If the flags lack NLM_F_ACK_TLVS, there are no attributes, and no bytes are left after the
 * cursor. The errors, after which the cursor is unchanged, are:
 * - SOCKDIAG_UNKNOWN_MESSAGE_TYPE: the message has another type;
 * - SOCKDIAG_WRONG_LENGTH: an NLMSG_DONE has fewer than 4 bytes; or an NLMSG_ERROR has fewer than
 *   20 bytes, or does not contain the whole request although it should, or the length field of this
 *   request is below 16.
 */
uint32_t sockdiag_find_error_attributes(const uint8_t *payload, size_t length,
                                        uint16_t message_type, uint16_t flags,
                                        struct sockdiag_cursor *cursor);

/*
 * Returns 1 if the message has this sequence number and this port id, else 0. Pass the sequence
 * number of a request, and the port id of the socket that sent it, which getsockname(2) returns in
 * nl_pid: the result is 1 if the message answers the request. Skip any other message. It may be a
 * late answer to an earlier request. The message does not show who sent it: connect the socket to
 * port id 0 by connect(2), and only the kernel can send to it.
 */
uint32_t sockdiag_is_answer(const struct sockdiag_message *message, uint32_t sequence_number,
                            uint32_t port_number);

/*
 * Returns 1 if the message reports that the dump is inconsistent (NLM_F_DUMP_INTR), else 0. Test
 * each message of a dump, also its end. If one has the flag, read up to the end, and send the
 * request again. 0 does not mean that the list is complete: Linux 6.18 did not set the flag in any
 * message of dumps during which sockets opened and closed, and sockets were missing or listed
 * twice. To miss fewer sockets, request several dumps, and collect the sockets by their cookies. No
 * number of dumps gives a complete list for certain.
 */
uint32_t sockdiag_is_interrupted(const struct sockdiag_message *message);

/*
 * Returns 1 if the message is an NLMSG_DONE or an NLMSG_ERROR, else 0. After such a message no more
 * messages of the answer follow. The number that sockdiag_get_error_number stores is 0 if it
 * reports success. An NLMSG_OVERRUN does not end the answer, but data was lost.
 */
uint32_t sockdiag_ends_answer(const struct sockdiag_message *message);

/* ---- values of single attributes
 *
 * These attributes are not in the details of a reply, or only as bytes: PACKET_DIAG_MCLIST and
 * PACKET_DIAG_FILTER. sockdiag_next_attribute returns them: pass the bytes of its value, which are
 * payload + attribute.offset and attribute.length. The caller chooses the call by the kind,
 * attribute.type_word & SOCKDIAG_NLA_TYPE_MASK. A value that is longer than the struct is accepted,
 * since newer kernels may append fields.
 *
 * A value that is an array is read by a call that iterates over its items. If the rest of the value
 * is shorter than an item, the call returns SOCKDIAG_WRONG_LENGTH, and no bytes are left. The time
 * for all items of a value is proportional to its length.
 *
 * The values of INET_DIAG_ULP_INFO, INET_DIAG_SK_BPF_STORAGES and attributes in them consist of
 * attributes: iterate over all bytes of a value by sockdiag_next_attribute, and read a number by
 * sockdiag_get_number.
 *
 * print_pending of the example list_sockets.c prints the inodes of the sockets that connected and
 * were not yet accepted. They are the value of an attribute that the details lack:
 *
 *     static void print_pending(const uint8_t *payload, size_t length) {
 *         struct sockdiag_cursor cursor = {SOCKDIAG_UNIX_ATTRIBUTES}, step = {0};
 *         struct sockdiag_attribute it;
 *         uint32_t inode;
 *         while (sockdiag_next_attribute(payload, length, &cursor, &it) == SOCKDIAG_ITEM) {
 *             if ((it.type_word & SOCKDIAG_NLA_TYPE_MASK) != SOCKDIAG_UNIX_DIAG_ICONS)
 *                 continue;
 *             while (sockdiag_next_pending(payload + it.offset, it.length, &step, &inode)
 *                    == SOCKDIAG_ITEM)
 *                 printf(" pending %u", inode);
 *             return;
 *         }
 *     }
 */

/*
 * Stores a number, the value of an attribute: little-endian, of 1, 2, 4 or 8 bytes. Another length
 * is SOCKDIAG_WRONG_LENGTH.
 */
uint32_t sockdiag_get_number(const uint8_t *value, size_t length, uint64_t *number);

/*
 * Iterates over the inodes, of 4 bytes each, in the value of UNIX_DIAG_ICONS: of the sockets that
 * connected to a UNIX socket, and were not yet accepted; 0 for one that was closed since.
 */
uint32_t sockdiag_next_pending(const uint8_t *value, size_t length, struct sockdiag_cursor *cursor,
                               uint32_t *inode);

/*
 * The measurements of TCP Vegas, and of other algorithms that report in the same format: struct
 * tcpvegas_info of linux/inet_diag.h, 16 bytes, four little-endian u32 fields.
 */
struct sockdiag_vegas_info {
    uint32_t enabled;   /* Whether the algorithm is in use, tcpv_enabled, at offset 0: 0 for no. */
    uint32_t rtt_count; /* Number of round trips measured, tcpv_rttcnt, at offset 4. */
    uint32_t rtt;       /* Round-trip time, tcpv_rtt, at offset 8, in microseconds. Which one
                           (the least, the mean or the last) depends on the algorithm. */
    uint32_t min_rtt;   /* Minimum round-trip time, tcpv_minrtt, at offset 12, in microseconds:
                           of all measurements, or with Vegas only of the last round trip. */
};

/*
 * Stores the measurements of TCP Vegas and of similar algorithms: the value of INET_DIAG_VEGASINFO.
 * If it has fewer than 16 bytes, the error is SOCKDIAG_WRONG_LENGTH.
 */
uint32_t sockdiag_get_vegas_info(const uint8_t *value, size_t length,
                                 struct sockdiag_vegas_info *info);

/*
 * The measurements of DCTCP: struct tcp_dctcp_info of linux/inet_diag.h, 16 bytes, little-endian.
 */
struct sockdiag_dctcp_info {
    uint16_t enabled;      /* Whether the algorithm is in use, dctcp_enabled, at offset 0: 0 for
                              no. */
    uint16_t ce_state;     /* Whether the last received segment had the ECN mark CE,
                              dctcp_ce_state, at offset 2: 0 for no. */
    uint32_t alpha;        /* Estimated fraction of the bytes that are marked, dctcp_alpha, at
                              offset 4, in 1024ths. */
    uint32_t marked_bytes; /* Number of acknowledged bytes that the peer reported as marked,
                              since alpha was last updated, dctcp_ab_ecn, at offset 8. */
    uint32_t acked_bytes;  /* Number of acknowledged bytes since then, dctcp_ab_tot, at offset
                              12. */
};

/*
 * Stores the measurements of DCTCP: the value of INET_DIAG_DCTCPINFO. If it has fewer than 16
 * bytes, the error is SOCKDIAG_WRONG_LENGTH.
 */
uint32_t sockdiag_get_dctcp_info(const uint8_t *value, size_t length,
                                 struct sockdiag_dctcp_info *info);

/* The measurements of BBR: struct tcp_bbr_info of linux/inet_diag.h, 20 bytes, little-endian. */
struct sockdiag_bbr_info {
    uint64_t bandwidth;   /* Estimated bandwidth, in bytes per second: bbr_bw_lo, at offset 0, is
                             its low half, and bbr_bw_hi, at offset 4, its high half. */
    uint32_t min_rtt;     /* Minimum round-trip time, bbr_min_rtt, at offset 8, in microseconds. */
    uint32_t pacing_gain; /* Factor from the bandwidth to the pacing rate, bbr_pacing_gain, at
                             offset 12, in 256ths. */
    uint32_t window_gain; /* Factor from the bandwidth-delay product to the congestion window,
                             bbr_cwnd_gain, at offset 16, in 256ths. */
};

/*
 * Stores the measurements of BBR: the value of INET_DIAG_BBRINFO. If it has fewer than 20 bytes,
 * the error is SOCKDIAG_WRONG_LENGTH.
 */
uint32_t sockdiag_get_bbr_info(const uint8_t *value, size_t length, struct sockdiag_bbr_info *info);

/*
 * An MD5 signature key for the segments of some peers: one of the records in the value of
 * INET_DIAG_MD5SIG, struct tcp_diag_md5sig of linux/tcp.h, 100 bytes. The kernel sends it only to
 * processes with CAP_NET_ADMIN.
 */
struct sockdiag_md5_signature {
    uint8_t family;        /* Address family, tcpm_family, at offset 0: 2 for AF_INET, 10 for
                              AF_INET6. */
    uint8_t prefix_length; /* Length of the address prefix of the peers, tcpm_prefixlen, at
                              offset 1, in bits. */
    uint16_t key_length;   /* Length of the key, tcpm_keylen, at offset 2, in bytes,
                              little-endian. */
    uint8_t address[16];   /* Address, tcpm_addr, at offset 4, in network byte order. An IPv4
                              address is in the first four bytes. */
    uint8_t key[80];       /* Key, tcpm_key, at offset 20. Only the first key_length bytes are
                              used. */
};

/*
 * Iterates over the MD5 signature keys, of 100 bytes each, in the value of INET_DIAG_MD5SIG. The
 * kernel sends keys only to processes with CAP_NET_ADMIN.
 */
uint32_t sockdiag_next_md5_signature(const uint8_t *value, size_t length,
                                     struct sockdiag_cursor *cursor,
                                     struct sockdiag_md5_signature *signature);

/*
 * An address of an SCTP socket or association: one of the records in the values of INET_DIAG_LOCALS
 * and INET_DIAG_PEERS. It is a struct sockaddr_storage, 128 bytes. By its family, it starts with a
 * struct sockaddr_in (ip(7)) or a struct sockaddr_in6 (ipv6(7)). No byte is ignored.
 */
struct sockdiag_stored_address {
    uint16_t family;      /* Address family, sin_family or sin6_family, at offset 0,
                             little-endian: 2 for AF_INET, 10 for AF_INET6. */
    uint16_t port;        /* Port, sin_port or sin6_port, at offset 2, parsed from network byte
                             order. */
    uint8_t front[4];     /* IPv4 address (sin_addr), or flow information of IPv6
                             (sin6_flowinfo), at offset 4, in network byte order. */
    uint16_t segments[8]; /* IPv6 address, sin6_addr, at offset 8: eight segments of 16 bits,
                             parsed from network byte order: 0x2001 for 2001:... For AF_INET, the
                             bytes after sin_addr. */
    uint32_t scope_id;    /* Index of the interface of a link-local IPv6 address, sin6_scope_id,
                             at offset 24, little-endian. */
    uint8_t rest[100];    /* The bytes from offset 28 on, which neither struct sockaddr_in nor
                             struct sockaddr_in6 has. */
};

/*
 * Iterates over the addresses of an SCTP association, of 128 bytes each, in the value of
 * INET_DIAG_LOCALS or INET_DIAG_PEERS.
 */
uint32_t sockdiag_next_address(const uint8_t *value, size_t length, struct sockdiag_cursor *cursor,
                               struct sockdiag_stored_address *address);

/*
 * A membership of a packet socket: an address that it also receives, or all packets, or all
 * multicast packets. It is one of the records in the value of PACKET_DIAG_MCLIST, struct
 * packet_diag_mclist of linux/packet_diag.h, 44 bytes. The numbers are little-endian.
 */
struct sockdiag_packet_membership {
    uint32_t interface;      /* Index of the interface, pdmc_index, at offset 0. */
    uint32_t count;          /* Number of times that the membership was added, pdmc_count, at
                                offset 4. */
    uint16_t kind;           /* Type of the membership, pdmc_type, at offset 8: one of
                                PACKET_MR_.. of linux/if_packet.h. */
    uint16_t address_length; /* Length of the address, pdmc_alen, at offset 10, in bytes. */
    uint8_t address[32];     /* Address, pdmc_addr, at offset 12. Only the first address_length
                                bytes are used. */
};

/*
 * Iterates over the memberships of a packet socket, of 44 bytes each, in the value of
 * PACKET_DIAG_MCLIST, the field memberships of its details.
 */
uint32_t sockdiag_next_membership(const uint8_t *value, size_t length,
                                  struct sockdiag_cursor *cursor,
                                  struct sockdiag_packet_membership *membership);

/*
 * An instruction of a socket filter: one of the records in the value of PACKET_DIAG_FILTER, struct
 * sock_filter of linux/filter.h, 8 bytes. The numbers are little-endian.
 */
struct sockdiag_filter_instruction {
    uint16_t code;           /* What the instruction does, code, at offset 0. */
    uint8_t jump_if_met;     /* Number of instructions to skip if its condition is met, jt, at
                                offset 2. */
    uint8_t jump_if_not_met; /* Number of instructions to skip if its condition is not met, jf,
                                at offset 3. */
    uint32_t operand;        /* Operand, k, at offset 4. */
};

/*
 * Iterates over the instructions of the filter of a packet socket, of 8 bytes each, in the value of
 * PACKET_DIAG_FILTER, the field filter of its details.
 */
uint32_t sockdiag_next_instruction(const uint8_t *value, size_t length,
                                   struct sockdiag_cursor *cursor,
                                   struct sockdiag_filter_instruction *instruction);

/* ---- errors with their fields
 *
 * All other calls return the code of an error. sockdiag_explain checks bytes that they rejected
 * again, and returns the error with the lengths, kinds and numbers that belong to it, and its
 * offset.
 */

/* Records that can have too few bytes: the numbers of the field record_name. */
enum sockdiag_record {
    SOCKDIAG_RECORD_SOCKET_ID = 1,               /* inet_diag_sockid, 48 bytes. */
    SOCKDIAG_RECORD_INET_REQUEST = 2,            /* inet_diag_req_v2, 56 bytes. */
    SOCKDIAG_RECORD_INET_RESPONSE_HEADER = 3,    /* inet_diag_msg, 72 bytes. */
    SOCKDIAG_RECORD_UNIX_REQUEST = 4,            /* unix_diag_req, 24 bytes. */
    SOCKDIAG_RECORD_UNIX_RESPONSE_HEADER = 5,    /* unix_diag_msg, 16 bytes. */
    SOCKDIAG_RECORD_LEGACY_MEM_INFO = 6,         /* The value of INET_DIAG_MEMINFO, 16 bytes. */
    SOCKDIAG_RECORD_MEM_INFO = 7,                /* The value of INET_DIAG_SKMEMINFO, 28, 32 or
                                                    36 bytes. */
    SOCKDIAG_RECORD_TCP_INFO = 8,                /* The value of INET_DIAG_INFO, 232 bytes. */
    SOCKDIAG_RECORD_VFS = 9,                     /* The value of UNIX_DIAG_VFS, 8 bytes. */
    SOCKDIAG_RECORD_UNIX_MEM_INFO = 10,          /* The value of UNIX_DIAG_MEMINFO, 36 bytes. */
    SOCKDIAG_RECORD_FAMILY_REQUEST = 11,         /* A request for sockets of another family, a
                                                    number AF_... */
    SOCKDIAG_RECORD_FAMILY_RESPONSE_HEADER = 12, /* The header of a reply about a socket of
                                                    another family, a number AF_... */
    SOCKDIAG_RECORD_FAMILY_ATTRIBUTE = 13        /* The value of an attribute of this kind, in a
                                                    reply about a socket of another family. */
};

/* A decode error with its fields. A field that the error does not have is 0. */
struct sockdiag_error_details {
    uint32_t code;               /* Code of the error, one of enum sockdiag_code. */
    uint32_t record_name;        /* Record that has too few bytes, one of SOCKDIAG_RECORD_..
                                    (SOCKDIAG_BUFFER_TOO_SMALL). SOCKDIAG_RECORD_MEM_INFO is also
                                    the memory of a netlink, packet or XDP socket. */
    uint32_t family;             /* Address family that is not supported
                                    (SOCKDIAG_UNSUPPORTED_FAMILY) or not known
                                    (SOCKDIAG_UNKNOWN_FAMILY). If record_name is one of
                                    SOCKDIAG_RECORD_FAMILY_.., the family of the record. */
    struct sockdiag_number kind; /* Kind of the attribute whose value has a wrong length
                                    (SOCKDIAG_WRONG_LENGTH), or too few bytes for its record
                                    (SOCKDIAG_RECORD_FAMILY_ATTRIBUTE). Not set for other
                                    records, such as memory counters. */
    size_t got;                  /* Number of bytes that were found: of the record, value or
                                    message; or, for an attribute whose header is cut or whose
                                    length field is too large, up to the end. */
    size_t need;                 /* Number of bytes that are needed. */
    size_t length;               /* Length field of the attribute or of the message. */
    size_t index;                /* Index of the first NUL in a pathname
                                    (SOCKDIAG_NAME_INNER_ZERO). */
    size_t offset;               /* Offset of the error in the bytes: that of the attribute whose
                                    framing or value is wrong. 0 if the header is wrong, and for
                                    a datagram or a single attribute. */
};
#define SOCKDIAG_ERROR_DETAILS_SIZE_1_0 64

#define SOCKDIAG_EXPLAIN_MESSAGE 256        /* what of sockdiag_explain: the payload of a
                                               message. */
#define SOCKDIAG_EXPLAIN_DATAGRAM 257       /* what of sockdiag_explain: a datagram from the
                                               cursor on. */
#define SOCKDIAG_EXPLAIN_UNIX_ATTRIBUTE 258 /* what of sockdiag_explain: an attribute of a UNIX
                                               socket. */
#define SOCKDIAG_EXPLAIN_INET_ATTRIBUTE 259 /* what of sockdiag_explain: an attribute of an IPv4
                                               or IPv6 socket. */

uint32_t sockdiag_fill_explain(uint32_t what, const uint8_t *bytes, size_t length,
                               struct sockdiag_error_details *error, uint8_t *later,
                               size_t later_length);

/*
 * Stores the error of bytes that another call rejected, with its fields, and returns its code.
 * Returns 0 if the bytes are accepted; then the error is unchanged. what says what the bytes are:
 * - a family, such as AF_INET: a whole reply about a socket of this family, which is its first
 *   byte, and which sockdiag_.._get_details rejects. Another family is SOCKDIAG_UNKNOWN_FAMILY;
 * - SOCKDIAG_EXPLAIN_MESSAGE: the payload of a message of type SOCK_DIAG_BY_FAMILY, which
 *   sockdiag_next_message rejects;
 * - SOCKDIAG_EXPLAIN_DATAGRAM: the rest of a datagram, from the offset that the cursor had before
 *   sockdiag_next_any_message rejected it;
 * - SOCKDIAG_EXPLAIN_UNIX_ATTRIBUTE or SOCKDIAG_EXPLAIN_INET_ATTRIBUTE: a part of a reply that
 *   begins with an attribute, which a lenient call rejects. Only this attribute is checked.
 *
 * Any other number is SOCKDIAG_INVALID_ARGUMENT.
 */
static inline uint32_t sockdiag_explain(uint32_t what, const uint8_t *bytes, size_t length,
                                        struct sockdiag_error_details *error, size_t size)
{
    if (size < SOCKDIAG_ERROR_DETAILS_SIZE_1_0)
        return SOCKDIAG_INVALID_ARGUMENT;
    return sockdiag_fill_explain(
        what, bytes, length, error, (uint8_t *)error + SOCKDIAG_ERROR_DETAILS_SIZE_1_0,
        size - SOCKDIAG_ERROR_DETAILS_SIZE_1_0);
}

/* ---- requests
 *
 * A call writes a whole netlink message at the start of the buffer, stores its length, and leaves
 * the bytes after it unchanged. If the buffer is shorter, it returns SOCKDIAG_NO_SPACE, and stores
 * the length that it needs. SOCKDIAG_.._REQUEST_LENGTH bytes suffice without attributes of the
 * caller. After other errors it stores 0. Nothing is written then. All bits of flags and of bit
 * sets are written unchanged.
 */

/*
 * Fields of the netlink header of a request. The call that writes the request sets the length and
 * the type.
 */
struct sockdiag_request_header {
    uint16_t flags;           /* NLM_F_REQUEST, and NLM_F_DUMP to request all sockets
                                 (nlmsg_flags). Without NLM_F_DUMP the answer is one message, and
                                 an NLMSG_ERROR with the number 0 follows it only with NLM_F_ACK;
                                 inode or addresses, ports and cookie select the socket, and
                                 states do not. Without NLM_F_REQUEST the kernel does not answer,
                                 except that it acknowledges the message with NLM_F_ACK. */
    uint32_t sequence_number; /* Sequence number, which the answer repeats (nlmsg_seq). If each
                                 request has another one, sockdiag_is_answer recognizes its
                                 answer. */
    uint32_t port_number;     /* Port id of the socket that sends the request, or 0 (nlmsg_pid).
                                 The kernel does not use it, and answers with the socket's port
                                 id. */
};

/* A request for UNIX sockets: struct unix_diag_req of sock_diag(7). */
struct sockdiag_unix_request {
    struct sockdiag_request_header header; /* Fields of the netlink header. */
    uint32_t states;                       /* States to include, with the bit 1 << TCP_LISTEN for
                                              TCP_LISTEN (udiag_states). UINT32_MAX includes all.
                                              A UNIX socket is in state 1, 7 or 10: without the
                                              bit 1 << TCP_CLOSE, sockets that neither listen nor
                                              were connected are missing, as most datagram
                                              sockets are. Only a request with NLM_F_DUMP selects
                                              by states. */
    uint32_t inode;                        /* Inode, to request a single socket (udiag_ino). With
                                              NLM_F_DUMP the kernel ignores it. */
    uint32_t show;                         /* Attributes that the replies shall have, a set of
                                              UDIAG_SHOW_.. (udiag_show). */
    uint8_t cookie[8];                     /* Cookie that distinguishes sockets with the same
                                              inode, to request a single socket (udiag_cookie).
                                              The kernel compares it, also if it is zeros. Eight
                                              bytes 0xff match any socket. */
};

/*
 * A request for IPv4 or IPv6 sockets: struct inet_diag_req_v2 of sock_diag(7). With NLM_F_DUMP the
 * kernel selects sockets by family, protocol, states and ports, and a port 0 means all ports; it
 * ignores addresses, interface and cookie. Without NLM_F_DUMP it selects one socket by family,
 * protocol, addresses, ports, interface and cookie, and ignores states.
 */
struct sockdiag_inet_request {
    struct sockdiag_request_header header; /* Fields of the netlink header. */
    uint8_t family;                        /* AF_INET or AF_INET6 (sdiag_family). */
    uint8_t extensions;                    /* Attributes that the replies shall have, with the
                                              bit 1 << (kind - 1) for each kind up to 8
                                              (idiag_ext). Kinds above 8 have no bit. That of
                                              INET_DIAG_VEGASINFO requests what the socket's
                                              algorithm has, also INET_DIAG_DCTCPINFO or
                                              INET_DIAG_BBRINFO, and that of INET_DIAG_TCLASS
                                              also INET_DIAG_CLASS_ID. For MPTCP, and for kernels
                                              without tcpi_snd_wnd, leave out INET_DIAG_INFO, or
                                              use a lenient call: sockdiag_inet_get_details
                                              rejects their replies. */
    uint32_t protocol;                     /* Protocol, one of IPPROTO_.. (sdiag_protocol).
                                              Request one protocol at a time: of the replies to a
                                              request only those about raw sockets contain it. A
                                              protocol above 255, such as IPPROTO_MPTCP, is
                                              written as an attribute INET_DIAG_REQ_PROTOCOL, and
                                              sdiag_protocol is 0. A kernel that does not know
                                              the attribute answers with an error. */
    uint32_t states;                       /* States to include, with the bit 1 << TCP_LISTEN for
                                              TCP_LISTEN (idiag_states). UINT32_MAX includes all.
                                              The bit 1 << TCP_BOUND_INACTIVE includes TCP
                                              sockets that are only bound; replies about them
                                              have the state TCP_CLOSE. Linux 5.10 and 6.1 do not
                                              list them. */
    uint16_t source_port;                  /* Local port (idiag_sport). */
    uint16_t destination_port;             /* Remote port (idiag_dport). */
    uint8_t source_address[16];            /* Local address in network byte order (idiag_src).
                                              For AF_INET, the first four bytes. */
    uint8_t destination_address[16];       /* Remote address, in the same format (idiag_dst). */
    uint32_t interface_id;                 /* Index of the interface that the socket is bound to,
                                              or 0 (idiag_if). */
    uint8_t cookie[8];                     /* Cookie that distinguishes sockets with the same
                                              addresses and ports (idiag_cookie), to request a
                                              single socket. The kernel compares it, also if it
                                              is zeros. Eight bytes 0xff (INET_DIAG_NOCOOKIE)
                                              match any socket. */
};

/*
 * Length of a UNIX request, and maximum length of an internet request without attributes of the
 * caller, in bytes. The latter has 72 bytes if its protocol is below 256.
 */
#define SOCKDIAG_UNIX_REQUEST_LENGTH 40
#define SOCKDIAG_INET_REQUEST_LENGTH 80

/* Writes a request for UNIX sockets: 40 bytes. */
uint32_t sockdiag_write_unix_request(const struct sockdiag_unix_request *request, uint8_t *buffer,
                                     size_t length, size_t *written);

/*
 * Writes a request for IPv4 or IPv6 sockets: 72 bytes, or 80 if the protocol is above 255. A family
 * other than AF_INET and AF_INET6 is SOCKDIAG_UNSUPPORTED_FAMILY.
 */
uint32_t sockdiag_write_inet_request(const struct sockdiag_inet_request *request, uint8_t *buffer,
                                     size_t length, size_t *written);

/*
 * Writes a request for the kernel to close one IPv4 or IPv6 socket, of type SOCK_DESTROY, and else
 * as sockdiag_write_inet_request. The flags are NLM_F_REQUEST, and NLM_F_ACK to have success
 * acknowledged. Addresses, ports, interface and cookie select the socket, and states do not. If no
 * TCP connection has these addresses and ports, Linux takes the socket that listens on the local
 * port: pass the cookie of the reply, so that it closes no other socket. Linux closes TCP, UDP and
 * raw sockets if the caller has CAP_NET_ADMIN: without it the answer is EPERM, and EOPNOTSUPP from
 * a kernel without CONFIG_INET_DIAG_DESTROY.
 */
uint32_t sockdiag_write_inet_destroy(const struct sockdiag_inet_request *request, uint8_t *buffer,
                                     size_t length, size_t *written);

/*
 * A request for netlink, packet or XDP sockets: struct netlink_diag_req, packet_diag_req or
 * xdp_diag_req of linux/netlink_diag.h, linux/packet_diag.h or linux/xdp_diag.h.
 */
struct sockdiag_show_request {
    struct sockdiag_request_header header; /* Fields of the netlink header. */
    uint8_t family;                        /* AF_NETLINK, AF_PACKET or AF_XDP (sdiag_family, at
                                              0). */
    uint8_t protocol;                      /* Protocol of netlink sockets (sdiag_protocol, at 1),
                                              one of NETLINK_.., such as 0 for NETLINK_ROUTE, or
                                              NDIAG_PROTO_ALL for all. 0 for other families. */
    uint32_t inode;                        /* Inode, to request a single socket (ndiag_ino,
                                              pdiag_ino, xdiag_ino, at 4). Linux only lists these
                                              sockets, and ignores it. */
    uint32_t show;                         /* Attributes that the replies shall have, a set of
                                              NDIAG_SHOW_.., PACKET_SHOW_.. or XDP_SHOW_..
                                              (ndiag_show, pdiag_show, xdiag_show, at 8). */
    uint64_t cookie;                       /* Cookie that distinguishes sockets with the same
                                              inode (ndiag_cookie, pdiag_cookie, xdiag_cookie, at
                                              12), to request a single socket. Linux ignores it. */
};

/* A request for vsock sockets: struct vsock_diag_req of linux/vm_sockets_diag.h. */
struct sockdiag_vsock_request {
    struct sockdiag_request_header header; /* Fields of the netlink header. */
    uint32_t states;                       /* States to include, with the bit 1 << TCP_LISTEN for
                                              TCP_LISTEN (vdiag_states, at 4). UINT32_MAX
                                              includes all. */
    uint64_t cookie;                       /* Cookie that distinguishes sockets (vdiag_cookie, at
                                              16). Linux ignores it. */
};

/* Lengths of these requests in bytes. */
#define SOCKDIAG_SHOW_REQUEST_LENGTH 36
#define SOCKDIAG_VSOCK_REQUEST_LENGTH 40

/*
 * Writes a request for netlink, packet or XDP sockets: 36 bytes. A family other than AF_NETLINK,
 * AF_PACKET and AF_XDP is SOCKDIAG_UNKNOWN_FAMILY.
 */
uint32_t sockdiag_write_show_request(const struct sockdiag_show_request *request, uint8_t *buffer,
                                     size_t length, size_t *written);

/* Writes a request for vsock sockets: 40 bytes. */
uint32_t sockdiag_write_vsock_request(const struct sockdiag_vsock_request *request, uint8_t *buffer,
                                      size_t length, size_t *written);

/*
 * Writes a request as sockdiag_write_inet_request does, followed by the attributes and by zeros up
 * to a multiple of 4. The bytes have to be a sequence of complete attributes, whose values are not
 * checked: else the error is that of their framing. SOCKDIAG_TOO_LONG is returned for attributes of
 * 4 GiB.
 *
 * One such attribute is the bytecode of a filter, INET_DIAG_REQ_BYTECODE, which the kernel runs on
 * each socket. It answers with -EINVAL if no of an operation leads into the middle of another or
 * more than 4 bytes past the end, or yes past the end; and with -EPERM if the filter has an
 * INET_DIAG_BC_MARK_COND and the caller lacks CAP_NET_ADMIN.
 */
uint32_t sockdiag_write_inet_request_with_attributes(const struct sockdiag_inet_request *request,
                                                     const uint8_t *attributes, size_t length,
                                                     uint8_t *buffer, size_t buffer_length,
                                                     size_t *written);

/* ---- filters
 *
 * A filter selects IPv4 and IPv6 sockets. Its text has the words of ss(8), which ASCII white space
 * separates:
 *
 * - state STATE and exclude STATE, any number of them, with the names that ss(8) has for states and
 *   groups of them, as established or connected, and then an expression or nothing;
 * - conditions: sport and dport with a port, as :443 or 443; src and dst with an address, which a
 *   slash and a number of bits, and a colon and a port may follow, as 10.0.0.0/8:53, [::1]:53 or
 *   *:53; dev with the index of an interface; fwmark with a mark, as 1 or 0x1/0x3; cgroup with an
 *   id; and autobound;
 * - the operators of ports =, !=, <, >, <= and >=, also as words such as eq or geq; of dev, fwmark
 *   and cgroup only = and !=, of addresses only =. Without an operator = is meant;
 * - not and !, and, & and &&, or, | and ||, and parentheses. not applies to the operand that
 *   follows it. and and or group from the left with the same precedence, as ss(8) parses them,
 *   though its manual page says otherwise. Two operands without an operator are combined by and.
 *
 * An IPv6 address is in brackets, with its number of bits if it has one: [fe80::/10]:53. With a
 * number of bits the brackets may be left out. Numbers are in decimal, or in hexadecimal after 0x.
 * Names of hosts, services, interfaces and control groups are not known.
 *
 * To request the sockets of a filter, pass its program to
 * sockdiag_write_inet_request_with_attributes as an attribute, and its states, if it has some, as
 * those of the request.
 *
 * write_filter of the example list_sockets.c writes the filter for a local port, or for all if it
 * is 0: an attribute INET_DIAG_REQ_BYTECODE. Returns its length, or 0 if there is no filter:
 *
 *     static size_t write_filter(uint16_t port, uint8_t *attribute, size_t size) {
 *         char text[40] = "";
 *         struct nlattr head = {0, SOCKDIAG_INET_DIAG_REQ_BYTECODE};
 *         struct sockdiag_filter_details filter;
 *         if (port != 0)
 *             sprintf(text, "sport >= :%u and sport <= :%u", (unsigned)port, (unsigned)port);
 *         if (sockdiag_parse_filter((const uint8_t *)text, strlen(text), attribute + sizeof head,
 *                                   size - sizeof head, &filter, sizeof filter)
 *                 != SOCKDIAG_OK
 *             || filter.program_length == 0)
 *             return 0;
 *         head.nla_len = (uint16_t)(sizeof head + filter.program_length);
 *         memcpy(attribute, &head, sizeof head);
 *         return head.nla_len;
 *     }
 */

/* What sockdiag_parse_filter stores about a filter. */
struct sockdiag_filter_details {
    struct sockdiag_number states; /* States of the sockets, as a request has them in states. Not
                                      set if the text names none. */
    size_t program_length;         /* Length of the program in bytes. 0 if the text has no
                                      conditions: then a request has no INET_DIAG_REQ_BYTECODE. */
    size_t error_offset;           /* Offset of the word of the error in the text, in bytes.
                                      After SOCKDIAG_FILTER_INCOMPLETE it is the length of the
                                      text, and without an error 0. */
};
#define SOCKDIAG_FILTER_DETAILS_SIZE_1_0 24

#define SOCKDIAG_FILTER_PROGRAM_LENGTH 7168 /* Maximum length of the program of a filter, in
                                               bytes. */

uint32_t sockdiag_fill_parse_filter(const uint8_t *text, size_t length, uint8_t *program,
                                    size_t program_length, struct sockdiag_filter_details *filter,
                                    uint8_t *later, size_t later_length);

/*
 * Parses the text of a filter, and writes its program, the value of an attribute
 * INET_DIAG_REQ_BYTECODE, at the start of the buffer. If the buffer is shorter, the call returns
 * SOCKDIAG_NO_SPACE, and stores the length that it needs in program_length;
 * SOCKDIAG_FILTER_PROGRAM_LENGTH bytes suffice. A text that is no filter is
 * SOCKDIAG_FILTER_UNEXPECTED, SOCKDIAG_FILTER_INCOMPLETE or SOCKDIAG_FILTER_TOO_LONG. Bytes of the
 * buffer that are not written are unchanged. All fields of the struct are set, also if the call
 * returns one of these codes.
 *
 * The kernel runs the program on each socket that the request selects otherwise, and lists those
 * that meet the conditions. It accepts each program whose conditions it knows, except that fwmark
 * needs CAP_NET_ADMIN, and cgroup a kernel with control groups.
 */
static inline uint32_t sockdiag_parse_filter(const uint8_t *text, size_t length, uint8_t *program,
                                             size_t program_length,
                                             struct sockdiag_filter_details *filter, size_t size)
{
    if (size < SOCKDIAG_FILTER_DETAILS_SIZE_1_0)
        return SOCKDIAG_INVALID_ARGUMENT;
    return sockdiag_fill_parse_filter(
        text, length, program, program_length, filter,
        (uint8_t *)filter + SOCKDIAG_FILTER_DETAILS_SIZE_1_0,
        size - SOCKDIAG_FILTER_DETAILS_SIZE_1_0);
}

/* ---- the canonical form
 *
 * All replies that differ only in ignored bits have the same canonical form, which serves to
 * compare them. Ignored bits are undefined flags, pad fields, padding, and bytes that no parser
 * reads, for example. So the form lacks some values that other calls return: the time of timer 3
 * (TIME_WAIT), the number of retransmissions of a timer other than 1, all of timer 5, six of the
 * nine fields of UNIX_DIAG_MEMINFO, and the fields of INET_DIAG_INFO after tcpi_snd_wnd. The form
 * is written at the start of the buffer, and its length is stored, as those of a request.
 */

/*
 * Writes the canonical form of a reply about a UNIX socket. The errors are SOCKDIAG_NO_SPACE,
 * SOCKDIAG_TOO_LONG if an attribute or the reply is too long to be serialized, and the first error
 * of the reply.
 */
uint32_t sockdiag_rewrite_unix_reply(const uint8_t *payload, size_t length, uint8_t *buffer,
                                     size_t buffer_length, size_t *written);

/*
 * Writes the canonical form of a reply about an IPv4 or IPv6 socket. The errors are those of
 * sockdiag_rewrite_unix_reply.
 */
uint32_t sockdiag_rewrite_inet_reply(const uint8_t *payload, size_t length, uint8_t *buffer,
                                     size_t buffer_length, size_t *written);

#ifdef __cplusplus
}
#endif

#endif
