//! The limit that decides a call: by the original's own rule, found by asking it, and by #107, worked out from that and
//! from sums over the original's entries. Neither the port nor the model has a say in it.

use crate::{
    monty_fs::{Original, entry_size},
    side::{Call, Side, charge},
};

/// The mtime passed to a call that stores none.
pub const UNUSED_MTIME: u64 = 7;

/// The smallest limits at which a call is not refused by 11.
#[derive(Debug, Clone, Copy, PartialEq, Eq)]
pub struct Edge {
    /// By #107: that of the port and of the model.
    pub ours: u64,
    /// By the original's own rule; never the larger one, since no body is charged less by #107.
    pub theirs: u64,
}

impl Edge {
    /// The limit at which the original has to answer as the others at this one: as far from its edge as this is from
    /// ours, but not below 0. 2^64 - 1 stays: it is no limit.
    pub fn translated(self, limit: u64) -> u64 {
        if limit == u64::MAX { limit } else { limit.saturating_sub(self.ours - self.theirs) }
    }
}

/// The edge of a call that the original can be asked without a limit; none if no limit decides it.
///
/// 11 has two causes. One is the charge after the call. By #107 that is the sum over the entries that the original
/// leaves. The other, in a directory's rename and in an append to a reference, is the charge before the call with
/// something beside it that #107 does not round: plan and walk, or the content's length. By #107 this is larger by what
/// the entries before the call are charged more.
///
/// If the charge after the call is the original's edge, it is ours too. On tables that calls built no body goes in a
/// directory's rename, so #107 adds at least as much to the charge after it as to the one before it. An append to a
/// reference always has the other cause's edge, since the reference's body is in the charge before it.
pub fn edge_of(original: &Original, call: &Call) -> Option<Edge> {
    let theirs = threshold_of(original, call, 1 << 40)?;
    let more = charge(&original.entries(), entry_size()) - original.charge();
    let mut left = original.copy();
    if left.call(&call.at(u64::MAX), UNUSED_MTIME).number != 0 {
        // A link in the walk, which the limit may keep it from meeting.
        return Some(Edge { ours: theirs + more, theirs });
    }
    let after = charge(&left.entries(), entry_size());
    let ours = if theirs == left.charge() { after } else { after.max(theirs + more) };
    Some(Edge { ours, theirs })
}

/// The call as the original is asked it by itself: at the translated limit.
pub fn translated(original: &Original, call: &Call) -> Call {
    let edge = if call.limit == u64::MAX { None } else { edge_of(original, call) };
    call.at(edge.map_or(call.limit, |edge| edge.translated(call.limit)))
}

/// The smallest limit at which a side does not refuse the call by 11, if some limit is refused; at most the last one.
/// Found on copies: first at the charge after the call, then by halving above it.
pub fn threshold_of(side: &impl Side, call: &Call, last: u64) -> Option<u64> {
    let at = |limit: u64| {
        let mut side = side.copy();
        let number = side.call(&call.at(limit), UNUSED_MTIME).number;
        (number, side.charge())
    };
    let (free, after) = at(u64::MAX);
    if call.op.only_asks() || at(0).0 != 11 {
        return None;
    }
    if free == 0 && at(after).0 != 11 && at(after - 1).0 == 11 {
        return Some(after);
    }
    let (mut refused, mut passed) = (0, last);
    assert!(at(passed).0 != 11, "a limit of {last} is refused");
    while passed - refused > 1 {
        let middle = refused + (passed - refused) / 2;
        if at(middle).0 == 11 {
            refused = middle;
        } else {
            passed = middle;
        }
    }
    Some(passed)
}
