//! The sides together: one call put to each of them, and what they left compared.
//! The original answers first, since the port takes the mtime that it stored. A call's limit is the port's and the
//! model's; the original, which does not round what bodies are charged (#107), is asked at the limit that edge.rs
//! translates it to.

use std::rc::Rc;

use crate::{
    Links, Manner,
    edge::{Edge, UNUSED_MTIME, edge_of, threshold_of},
    listing::{Kind, Tree, bytes, text},
    model::Model,
    monty_fs::{Original, entry_size},
    port::Port,
    side::{Answer, Call, Entries, Op, Rule, Side, charge, used},
};

/// Over what a list of calls runs.
#[derive(Clone)]
pub struct Setup {
    pub tree: Tree,
    pub mount: &'static str,
    pub room: usize,
}

impl Setup {
    pub fn new(tree: Tree, room: usize) -> Self {
        Self { tree, mount: "/mnt", room }
    }
}

/// Where two sides part.
#[derive(Debug, Clone)]
pub struct Difference {
    pub what: String,
    pub listing: String,
    pub calls: Vec<Call>,
}

pub struct World {
    pub original: Original,
    pub model: Model,
    pub port: Port,
    /// What the original answered to the last call, if that was a move onto itself, which it makes and the others do
    /// not (#104).
    pub parted: Option<Answer>,
    /// Whether the original was asked the last call at another limit than the others.
    pub moved: bool,
}

impl World {
    pub fn new(setup: &Setup) -> Self {
        let listing = Rc::new(bytes(&setup.tree));
        Self {
            original: Original::new(&listing, setup.mount, Manner::default()),
            model: Model::new(&Rc::new(setup.tree.clone()), entry_size(), setup.room),
            port: Port::new(&listing, entry_size(), setup.room),
            parted: None,
            moved: false,
        }
    }

    pub fn copy(&self) -> Self {
        let (original, model, port) = (self.original.copy(), self.model.copy(), self.port.clone());
        Self { original, model, port, parted: None, moved: false }
    }

    /// Puts one call to all sides; what parts is told in words. Where the cause of 12 or 13 holds, the original is
    /// left out, and where it cannot be asked (`asks_original`).
    pub fn call(&mut self, call: &Call) -> Result<Answer, String> {
        let edge = if call.limit == u64::MAX { None } else { self.edge(call) };
        self.call_by(call, edge)
    }

    /// The same with the limits that decide the call, as `edge` finds them.
    pub fn call_by(&mut self, call: &Call, edge: Option<Edge>) -> Result<Answer, String> {
        if call.op == Op::Show {
            return self.show(&call.path).map(|(answer, _)| answer);
        }
        // The cause of 12 and 13 does not hang on the mtime, so the model is asked apart first.
        let foretold = self.model.copy().call(call, UNUSED_MTIME);
        (self.parted, self.moved) = (None, false);
        if call.is_onto_itself() && foretold.number == 0 {
            return self.itself(call, foretold);
        }
        if !asks_original(foretold) {
            return self.others(call, UNUSED_MTIME, foretold);
        }
        let limit = edge.map_or(call.limit, |edge| edge.translated(call.limit));
        self.moved = limit != call.limit;
        let answer = self.original.call(&call.at(limit), UNUSED_MTIME);
        let entries = self.original.entries();
        let stored = call.takes_mtime() && answer.number == 0;
        let mtime = entries.get(&call.path).filter(|_| stored).map_or(UNUSED_MTIME, |entry| entry.mtime);
        let (kept, sum) = (self.original.charge(), Rule::Length.charge(&entries, entry_size()));
        if kept != sum {
            return Err(format!("the original's charge {kept} is not the sum {sum}"));
        }
        let answer = self.others(call, mtime, answer)?;
        self.same("model", &self.model, &entries)?;
        self.same("port", &self.port, &entries)?;
        Ok(answer)
    }

    /// A move of a path onto itself that is accepted: the model and the port leave all as it was. The original moves it
    /// (docs/DIFFERENCES.md, 18): on a copy, it is held to what document 01 had before #104, its answer and its table.
    /// No limit decides the call here, so none is translated: this one counts by the original's rule.
    fn itself(&mut self, call: &Call, answer: Answer) -> Result<Answer, String> {
        let mut before = self.model.by(Rule::Length);
        let moved = before.move_to(&call.path, &call.path, call.limit).map_or_else(|refusal| refusal, |()| answer);
        if asks_original(moved) {
            let mut original = self.original.copy();
            let theirs = original.call(call, UNUSED_MTIME);
            if theirs != moved || original.entries() != before.entries() || original.charge() != before.charge() {
                return Err(format!("{call}: the original gives {theirs}, document 01 before #104 {moved}"));
            }
            self.parted = Some(theirs);
        }
        let entries = self.original.entries();
        self.others(call, UNUSED_MTIME, answer)?;
        self.same("model", &self.model, &entries)?;
        self.same("port", &self.port, &entries)?;
        Ok(answer)
    }

    /// Shows a path on all sides: the model and the port must give the same names in the same order, the original the
    /// same as a set, over a host whose links lead nowhere, and with links aside over one whose links lead to files. The
    /// answer, and how many links were left aside.
    pub fn show(&mut self, path: &str) -> Result<(Answer, usize), String> {
        let wanted = self.model.show(path);
        let answer = Answer::shown(&wanted);
        let port = self.port.show(path);
        if port != wanted {
            return Err(format!("show `{path}`: expected {answer} {wanted:?}, the port gives {port:?}"));
        }
        if answer.number == 3 {
            return Ok((answer, 0));
        }
        let [mut dead, mut live] = [Links::Dead, Links::Live].map(|links| self.original.show(path, links));
        for names in [&mut dead, &mut live].into_iter().flatten() {
            names.sort_unstable();
        }
        let listed = live.as_ref().map_or(0, Vec::len);
        if let Ok(names) = &mut live {
            names.retain(|name| !self.is_link(path, name));
        }
        if dead != wanted || live != wanted {
            return Err(format!(
                "show `{path}`: the model gives {wanted:?}, the original {dead:?}, with links aside {live:?}"
            ));
        }
        Ok((answer, listed - live.map_or(0, |names| names.len())))
    }

    /// Whether a link is visible at the child of this name.
    fn is_link(&self, path: &str, name: &str) -> bool {
        let child = if path.is_empty() { name.to_owned() } else { format!("{path}/{name}") };
        self.model.shown(&child) == Some(Kind::Link)
    }

    fn others(&mut self, call: &Call, mtime: u64, answer: Answer) -> Result<Answer, String> {
        let model = self.model.call(call, mtime);
        if model != answer {
            return Err(format!("{call}: the original gives {answer}, the model {model}"));
        }
        let port = self.port.call(call, mtime);
        if port != answer {
            return Err(format!("{call}: expected {answer}, the port gives {port}"));
        }
        Ok(answer)
    }

    fn same(&self, name: &str, side: &impl Side, entries: &Entries) -> Result<(), String> {
        let others = side.entries();
        if others != *entries {
            return Err(format!("the {name}'s entries are {others:?}, the original's {entries:?}"));
        }
        let (kept, sum) = (side.charge(), charge(entries, entry_size()));
        if kept != sum {
            return Err(format!("the {name}'s charge is {kept}, the original's entries are charged {sum}"));
        }
        Ok(())
    }

    /// The smallest limits at which the call is not refused by 11, if some limit is refused. Found by the original
    /// alone; where it cannot be asked without a limit, the model is in its place, by either rule.
    pub fn edge(&self, call: &Call) -> Option<Edge> {
        let free = self.model.copy().call(&call.at(u64::MAX), UNUSED_MTIME);
        if call.is_onto_itself() && free.number == 0 {
            return None;
        }
        if call.op.is_partial() && !asks_original(free) {
            let by = |rule| threshold_of(&self.model.by(rule), call, u64::MAX);
            return Some(Edge { ours: by(Rule::Rounded)?, theirs: by(Rule::Length)? });
        }
        edge_of(&self.original, call)
    }

    /// Whether this is the least length of the table buffer for a rename: the bytes used before fit, and by the model
    /// it is enough, and one byte less is not.
    pub fn is_least_length(&self, call: &Call, length: usize) -> bool {
        let number = |room| self.model.in_room(room).call(&call.at(u64::MAX), UNUSED_MTIME).number;
        let before = used(&self.model.entries());
        length >= before && number(length) == 0 && (length == before || number(length - 1) == 13)
    }

    /// Limits around those that could decide a call of change request #103: the charge after it, and the charge before
    /// it with the whole content. None for other calls, and where no limit lets it pass.
    pub fn deciding(&self, call: &Call) -> Vec<u64> {
        let mut tried = self.model.copy();
        if !call.op.is_partial() || tried.call(&call.at(u64::MAX), UNUSED_MTIME).number != 0 {
            return Vec::new();
        }
        let content = tried.entries()[&call.path].body.len() as u64;
        [tried.charge(), self.model.charge() + content]
            .into_iter()
            .flat_map(|limit: u64| [limit.saturating_sub(1), limit])
            .collect()
    }
}

/// Whether the original can be asked a call that the model answers so: not where a path is out of form, nor beyond
/// bounds that it has not (12 and 13), nor with other bytes than those of its host (17). Where it would hold 2^64 bytes
/// or more, which its sums count as 2^64 - 1, the model gives 13 without a limit.
pub fn asks_original(foretold: Answer) -> bool {
    !matches!(foretold.number, 3 | 12 | 13 | 17)
}

/// Runs a list from an empty table; the answers, or where it parts.
pub fn run(setup: &Setup, calls: &[Call]) -> Result<Vec<Answer>, Difference> {
    let mut world = World::new(setup);
    let mut answers = Vec::new();
    for (n, call) in calls.iter().enumerate() {
        match world.call(call) {
            Ok(answer) => answers.push(answer),
            Err(what) => return Err(Difference { what, listing: text(&setup.tree), calls: calls[..=n].to_vec() }),
        }
    }
    Ok(answers)
}

/// A smaller setup and list that part too: calls and listed paths are left out as long as something parts.
pub fn reduce(setup: &Setup, difference: Difference) -> Difference {
    let mut setup = setup.clone();
    let mut best = difference;
    loop {
        let mut smaller = None;
        for n in 0..best.calls.len() {
            let mut calls = best.calls.clone();
            calls.remove(n);
            smaller = smaller.or_else(|| run(&setup, &calls).err());
        }
        let paths: Vec<String> = setup.tree.keys().rev().cloned().collect();
        for path in paths {
            let mut less = setup.clone();
            less.tree.remove(&path);
            let parent = setup.tree.keys().any(|key| key.starts_with(&format!("{path}/")));
            if smaller.is_none()
                && !parent
                && let Err(found) = run(&less, &best.calls)
            {
                smaller = Some(found);
                setup = less;
            }
        }
        match smaller {
            Some(found) => best = found,
            None => return best,
        }
    }
}
