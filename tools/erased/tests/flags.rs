//! Each flag by its bit in the kernel, and each method, operator and format of a set by its
//! definition.

use sockdiag::inet::{self, ExtensionFlags};
use sockdiag::unix::{self, ShowFlags};
use std::collections::HashSet;

/// Compares the named flags with bits, and tests each method for all pairs of some sets.
macro_rules! test_flags {
    ($test:ident, $kind:ty, $bits:ty, { $($flag:ident: $bit:expr,)* }) => {
        #[test]
        fn $test() {
            let set = <$kind>::from_bits_retain;
            let all: $bits = 0 $(| 1 << $bit)*;
            let names = [$((stringify!($flag), <$kind>::$flag, 1 << $bit)),*];
            for (name, flag, bits) in names {
                assert_eq!((flag.bits(), <$kind>::from_name(name)), (bits, Some(flag)), "{name}");
            }
            assert_eq!((<$kind>::all().bits(), <$kind>::empty().bits()), (all, 0));
            assert!(<$kind>::from_name("NONE").is_none());
            let sets = [0, 1, 2, 3, 0x30, all, !all, all & 0x55, <$bits>::MAX, $(1 << $bit,)*];
            for bits in sets {
                let it = set(bits);
                assert_eq!((it.bits(), it.is_empty()), (bits, bits == 0));
                assert_eq!((!it).bits(), !bits & all);
                assert_eq!((it.is_all(), it.complement()), (bits & all == all, !it));
                assert_eq!(<$kind>::from_bits(bits), (bits & !all == 0).then_some(it));
                assert_eq!(<$kind>::from_bits_truncate(bits).bits(), bits & all);
                let named = names.into_iter().filter(|(_, _, flag)| bits & flag == *flag);
                assert!(it.iter_names().eq(named.clone().map(|(name, flag, _)| (name, flag))));
                let others = (bits & !all != 0).then(|| set(bits & !all));
                assert!(it.iter().eq(named.map(|(_, flag, _)| flag).chain(others)));
                assert_eq!(it.into_iter().collect::<$kind>(), it);
                assert_eq!(format!("{it:x} {it:#X} {it:b} {it:o}"),
                    format!("{bits:x} {bits:#X} {bits:b} {bits:o}"));
            }
            for (left, right) in sets.iter().flat_map(|left| sets.map(|right| (*left, right))) {
                let (it, other) = (set(left), set(right));
                assert_eq!(it.contains(other), right & !left == 0, "{left} contains {right}");
                assert_eq!(it.intersects(other), left & right != 0, "{left} and {right}");
                // Returns the bits of the set after a change.
                let after = |change: fn(&mut $kind, $kind)| {
                    let mut changed = it;
                    change(&mut changed, other);
                    changed.bits()
                };
                let found = [(it | other).bits(), it.union(other).bits(),
                    after(|it, by| *it |= by), after(<$kind>::insert),
                    after(|it, by| it.set(by, true)), after(|it, by| it.extend([by]))];
                assert_eq!(found, [left | right; 6]);
                let found = [(it & other).bits(), it.intersection(other).bits(),
                    after(|it, by| *it &= by)];
                assert_eq!(found, [left & right; 3]);
                let found = [(it - other).bits(), it.difference(other).bits(),
                    after(|it, by| *it -= by), after(<$kind>::remove),
                    after(|it, by| it.set(by, false))];
                assert_eq!(found, [left & !right; 5]);
                let found = [(it ^ other).bits(), it.symmetric_difference(other).bits(),
                    after(|it, by| *it ^= by), after(<$kind>::toggle)];
                assert_eq!(found, [left ^ right; 4]);
                assert_eq!(HashSet::from([it]).contains(&other), left == right);
            }
        }
    };
}

// States of `include/net/tcp_states.h`; only these two have names.
test_flags!(unix_states, unix::StateFlags, u32, { ESTABLISHED: 1, LISTEN: 10, });

// `UDIAG_SHOW_..` of `linux/unix_diag.h`
test_flags!(unix_attributes, ShowFlags, u32, {
    NAME: 0, VFS: 1, PEER: 2, ICONS: 3, RQLEN: 4, MEMINFO: 5,
});

// States of `include/net/tcp_states.h`
test_flags!(inet_states, inet::StateFlags, u32, {
    ESTABLISHED: 1, SYN_SENT: 2, SYN_RECV: 3, FIN_WAIT1: 4, FIN_WAIT2: 5, TIME_WAIT: 6, CLOSE: 7,
    CLOSE_WAIT: 8, LAST_ACK: 9, LISTEN: 10, CLOSING: 11,
});

// `INET_DIAG_..` of `linux/inet_diag.h`: the bit of a kind is the kind less 1.
test_flags!(inet_attributes, ExtensionFlags, u8, {
    MEMINFO: 0, INFO: 1, VEGASINFO: 2, CONG: 3, TOS: 4, TCLASS: 5, SKMEMINFO: 6, SHUTDOWN: 7,
});

#[test]
fn every_state_has_all_bits() {
    assert_eq!(unix::StateFlags::every_state().bits(), u32::MAX);
    assert_eq!(inet::StateFlags::every_state().bits(), u32::MAX);
}
