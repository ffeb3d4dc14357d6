//! A plain model written from document 01 and change requests #102, #103, #104 and #107 alone: a map of entries over a
//! map of listed paths, every check in its order. A third opinion beside the original and the port, and the only one
//! beside the port on 3, 12, 13 and 17. It can also charge bodies by the original's rule.

use std::{
    collections::{BTreeMap, BTreeSet},
    rc::Rc,
};

use crate::{
    listing::{Kind, Tree},
    side::{Answer, Call, Entries, Entry, Op, Rule, Side, lent, used},
};

#[derive(Clone)]
pub struct Model {
    listing: Rc<Tree>,
    entries: Entries,
    entry_size: u64,
    room: usize,
    rule: Rule,
}

type Checked<T = ()> = Result<T, Answer>;

/// Proper ancestors from the top, the root left out.
fn ancestors(path: &str) -> impl Iterator<Item = &str> {
    path.match_indices('/').map(|(at, _)| &path[..at])
}

/// Whether a path has document 01's form.
pub fn in_form(path: &str) -> bool {
    let part = |part: &str| {
        (1..=255).contains(&part.len()) && part != "." && part != ".." && !part.contains(['\0', '\\', ':'])
    };
    path.is_empty() || short(path) && path.split('/').all(part)
}

/// Whether a path has at most 512 bytes and 32 components.
fn short(path: &str) -> bool {
    path.len() <= 512 && path.split('/').count() <= 32
}

/// The parent of a path, and its last component.
fn split(path: &str) -> (&str, &str) {
    path.rsplit_once('/').unwrap_or(("", path))
}

impl Model {
    pub fn new(listing: &Rc<Tree>, entry_size: u64, room: usize) -> Self {
        Self { listing: Rc::clone(listing), entries: BTreeMap::new(), entry_size, room, rule: Rule::Rounded }
    }

    pub fn listing(&self) -> &Tree {
        &self.listing
    }

    pub fn room(&self) -> usize {
        self.room
    }

    /// The same table in a buffer of so many bytes.
    pub fn in_room(&self, room: usize) -> Self {
        Self { room, ..self.copy() }
    }

    /// The same table, charged by this rule.
    pub fn by(&self, rule: Rule) -> Self {
        Self { rule, ..self.copy() }
    }

    fn listed(&self, path: &str) -> Option<Kind> {
        if path.is_empty() { Some(Kind::Directory) } else { self.listing.get(path).map(|node| node.kind) }
    }

    /// What is visible at a path.
    pub fn shown(&self, path: &str) -> Option<Kind> {
        match self.entries.get(path).map(|entry| entry.kind) {
            Some(1 | 2) => Some(Kind::File),
            Some(3) => Some(Kind::Directory),
            Some(_) => None,
            None => self.listed(path),
        }
    }

    fn covered(&self, path: &str) -> bool {
        self.entries.contains_key(path)
    }

    /// Whether something is visible right below a path.
    fn has_child(&self, path: &str) -> bool {
        self.children(path).any(|key| self.shown(key).is_some())
    }

    /// The paths right below a path that have an entry or are listed, those with both twice.
    fn children<'a>(&'a self, path: &'a str) -> impl Iterator<Item = &'a String> {
        self.entries.keys().chain(self.listing.keys()).filter(move |key| split(key).0 == path)
    }

    /// The visible directories, the root too.
    pub fn directories(&self) -> Vec<String> {
        let all: BTreeSet<&String> = self.entries.keys().chain(self.listing.keys()).collect();
        let below = all.into_iter().filter(|path| self.shown(path) == Some(Kind::Directory)).cloned();
        [String::new()].into_iter().chain(below).collect()
    }

    /// The names of a path's visible children, ascending. "A link that no entry covers is left out."
    pub fn show(&self, path: &str) -> Checked<Vec<String>> {
        if !in_form(path) {
            return Err(Answer::refused(3));
        }
        // "for a path without an entry a link at it or on the way 4"
        if !self.covered(path) && ancestors(path).any(|above| self.listed(above) == Some(Kind::Link)) {
            return Err(Answer::named(4, 0, path));
        }
        match self.shown(path) {
            Some(Kind::Directory) => {}
            Some(Kind::File) => return Err(Answer::named(7, 0, path)),
            Some(Kind::Link) => return Err(Answer::named(4, 0, path)),
            None => return Err(Answer::named(5, 0, path)),
        }
        let visible = |key: &&String| matches!(self.shown(key), Some(Kind::Directory | Kind::File));
        let names: BTreeSet<&str> = self.children(path).filter(visible).map(|key| split(key).1).collect();
        Ok(names.into_iter().map(str::to_owned).collect())
    }

    fn parents(&self, path: &str, which: u8) -> Checked {
        for parent in ancestors(path) {
            match (self.entries.get(parent).map(|entry| entry.kind), self.listed(parent)) {
                (Some(3), _) | (None, Some(Kind::Directory)) => {}
                (None, Some(Kind::Link)) => return Err(Answer::named(4, which, path)),
                _ => return Err(Answer::named(5, which, path)),
            }
        }
        Ok(())
    }

    /// The files that have an own content, and all that are visible.
    pub fn files(&self) -> (Vec<String>, Vec<String>) {
        let own = self.entries.iter().filter(|(_, entry)| entry.kind == 1).map(|(key, _)| key.clone());
        let all: BTreeSet<&String> = self.entries.keys().chain(self.listing.keys()).collect();
        let files = all.into_iter().filter(|path| self.shown(path) == Some(Kind::File));
        (own.collect(), files.cloned().collect())
    }

    /// The listed file whose bytes an append needs, by its path and its recorded size.
    fn listed_file<'a>(&'a self, path: &'a str) -> Option<(&'a str, i64)> {
        match self.entries.get(path) {
            Some(entry) if entry.kind == 2 => Some((str::from_utf8(&entry.body).expect("a listed path"), entry.size)),
            Some(_) => None,
            None => self.listing.get(path).filter(|node| node.kind == Kind::File).map(|node| (path, node.size)),
        }
    }

    /// The checks of a write up to 11.
    fn write_checks(&self, path: &str) -> Checked {
        self.parents(path, 0)?;
        match self.shown(path) {
            Some(Kind::Directory) => Err(Answer::named(8, 0, path)),
            Some(Kind::Link) => Err(Answer::named(4, 0, path)),
            _ => Ok(()),
        }
    }

    /// Puts entries in place, or refuses by 11, 12 or 13.
    fn put(&mut self, changes: Vec<(String, Entry)>, limit: u64) -> Checked {
        let mut after = self.entries.clone();
        let too_long = changes.iter().any(|(key, _)| !short(key));
        after.extend(changes);
        if self.rule.charge(&after, self.entry_size) > limit {
            return Err(Answer::refused(11));
        } else if too_long {
            return Err(Answer::refused(12));
        } else if used(&after) > self.room {
            return Err(Answer::refused(13));
        }
        self.entries = after;
        Ok(())
    }

    fn write(&mut self, path: &str, data: &[u8], mtime: u64, limit: u64) -> Checked {
        self.write_checks(path)?;
        self.put(vec![(path.to_owned(), Entry::own(mtime, data.to_vec()))], limit)
    }

    /// Adds to a file, with these bytes lent.
    pub fn append(&mut self, path: &str, data: &[u8], bytes: &[u8], mtime: u64, limit: u64) -> Checked {
        self.write_checks(path)?;
        // "Lent bytes whose count isn't the recorded size (0 where no listed file's bytes are needed) are 17 before 11"
        if bytes.len() as i64 != self.listed_file(path).map_or(0, |(_, size)| size) {
            return Err(Answer::refused(17));
        }
        let own = self.entries.get(path).filter(|entry| entry.kind == 1);
        let content = [own.map_or(bytes, |entry| &entry.body), data].concat();
        // "The memory checks are those two functions' own": `append_bytes` wants its whole new content beside the
        // charge as it is, unless it extends an own file. That is no charge, so #107 does not round it.
        if own.is_none() && self.charge() + content.len() as u64 > limit {
            return Err(Answer::refused(11));
        }
        self.put(vec![(path.to_owned(), Entry::own(mtime, content))], limit)
    }

    /// Writes inside a file.
    pub fn write_at(&mut self, path: &str, data: &[u8], offset: u64, mtime: u64, limit: u64) -> Checked {
        let own = self.entries.get(path).filter(|entry| entry.kind == 1).ok_or(Answer::named(5, 0, path))?;
        // "an offset whose sum with the data length passes 2^64 − 1 is 18 after 5 and before 11"
        let end = offset.checked_add(data.len() as u64).ok_or(Answer::refused(18))?;
        let before = own.body.len() as u64;
        let after = before.max(end);
        // #107: "The growth in #103 is the rounded length after, less the rounded length before. A rounded length or
        // sum that would pass 2^64 − 1 counts as 2^64 − 1"
        let growth = self.rule.body(after) - self.rule.body(before);
        if self.charge().saturating_add(growth) > limit {
            return Err(Answer::refused(11));
        } else if used(&self.entries) as u128 + u128::from(after - before) > self.room as u128 {
            return Err(Answer::refused(13));
        }
        let (offset, end, mut content) = (offset as usize, end as usize, own.body.clone());
        // "A gap before the offset fills with zeros"
        content.resize(content.len().max(end), 0);
        content[offset..end].copy_from_slice(data);
        self.put(vec![(path.to_owned(), Entry::own(mtime, content))], limit)
    }

    fn mkdir(&mut self, path: &str, parents: bool, exist_ok: bool, mtime: u64, limit: u64) -> Checked {
        match self.shown(path) {
            Some(Kind::Directory) if exist_ok => return Ok(()),
            Some(Kind::Directory | Kind::File) => return Err(Answer::named(6, 0, path)),
            Some(Kind::Link) => return Err(Answer::named(4, 0, path)),
            None => {}
        }
        let mut made = Vec::new();
        if parents {
            for parent in ancestors(path) {
                match self.shown(parent) {
                    Some(Kind::Directory) => {}
                    Some(Kind::File) => return Err(Answer::named(7, 0, parent)),
                    Some(Kind::Link) => return Err(Answer::named(4, 0, path)),
                    None => made.push(parent.to_owned()),
                }
            }
        } else {
            self.parents(path, 0)?;
        }
        made.push(path.to_owned());
        self.put(made.into_iter().map(|key| (key, Entry::directory(mtime))).collect(), limit)
    }

    fn unlink(&mut self, path: &str, limit: u64) -> Checked {
        if !self.covered(path) {
            self.parents(path, 0)?;
        }
        match self.shown(path) {
            Some(Kind::File) => self.put(vec![(path.to_owned(), Entry::deleted())], limit),
            Some(Kind::Link) => Err(Answer::named(4, 0, path)),
            Some(Kind::Directory) => Err(Answer::named(8, 0, path)),
            None => Err(Answer::named(5, 0, path)),
        }
    }

    fn rmdir(&mut self, path: &str, limit: u64) -> Checked {
        if path.is_empty() {
            return Err(Answer::named(4, 0, path));
        } else if !self.covered(path) {
            self.parents(path, 0)?;
        }
        match self.shown(path) {
            Some(Kind::Link) => Err(Answer::named(4, 0, path)),
            None => Err(Answer::named(5, 0, path)),
            Some(Kind::File) => Err(Answer::named(7, 0, path)),
            Some(Kind::Directory) if self.has_child(path) => Err(Answer::named(9, 0, path)),
            Some(Kind::Directory) => self.put(vec![(path.to_owned(), Entry::deleted())], limit),
        }
    }

    /// The checks of rename that each path passes by itself.
    fn rename_paths(&self, from: &str, to: &str) -> Checked {
        for (which, path) in [(0, from), (1, to)] {
            if path.is_empty() {
                return Err(Answer::named(4, which, path));
            }
        }
        self.parents(to, 1)?;
        if !self.covered(to) && self.listed(to) == Some(Kind::Link) {
            return Err(Answer::named(4, 1, to));
        }
        self.parents(from, 0)?;
        if self.entries.get(from).is_some_and(|entry| entry.kind == 4) {
            return Err(Answer::named(5, 0, from));
        }
        if self.shown(from) == Some(Kind::Link) {
            return Err(Answer::named(4, 0, from));
        }
        Ok(())
    }

    /// Those of both together, up to the absent source, with what stands at the source.
    fn rename_types(&self, from: &str, to: &str) -> Checked<Entry> {
        let source = self.shown(from);
        match (source, self.shown(to)) {
            (Some(Kind::Directory), Some(Kind::File)) => return Err(Answer::named(7, 1, to)),
            (Some(Kind::Directory), Some(_)) if self.has_child(to) => return Err(Answer::named(9, 1, to)),
            (None | Some(Kind::File), Some(Kind::Directory)) => return Err(Answer::named(8, 1, to)),
            _ => {}
        }
        if source == Some(Kind::Directory) && to.strip_prefix(from).is_some_and(|rest| rest.starts_with('/')) {
            return Err(Answer::named(10, 0, from));
        }
        let entry = self.entries.get(from).cloned().or_else(|| self.carried(from));
        entry.ok_or(Answer::named(5, 0, from))
    }

    /// What a listed path becomes where it is moved.
    fn carried(&self, path: &str) -> Option<Entry> {
        let node = self.listing.get(path)?;
        Some(match node.kind {
            Kind::File => Entry::reference(node.mtime, node.size, path.as_bytes().to_vec()),
            _ => Entry::directory(node.mtime),
        })
    }

    /// The walk over what is listed below the source and has no entry.
    fn walk(&self, from: &str, budget: u64) -> Checked<Vec<String>> {
        let mut found = Vec::new();
        let mut waiting = vec![from];
        let mut sum = 2 * from.len() as u64 + 1;
        while let Some(directory) = waiting.pop() {
            let below = format!("{directory}/");
            let end = format!("{directory}0");
            for (path, node) in self.listing.range(below.clone()..end) {
                if path[below.len()..].contains('/') || self.covered(path) {
                    continue;
                }
                sum += match node.kind {
                    Kind::Link => return Err(Answer::named(4, 0, from)),
                    Kind::File => 2 * path.len() as u64 + 512,
                    Kind::Directory => 3 * path.len() as u64 + 512,
                };
                if sum > budget {
                    return Err(Answer::refused(11));
                }
                found.push(path.clone());
                if node.kind == Kind::Directory {
                    waiting.push(path);
                }
            }
        }
        Ok(found)
    }

    fn rename(&mut self, from: &str, to: &str, limit: u64) -> Checked {
        self.rename_paths(from, to)?;
        // #104: "If both paths are equal and the source is visible, accept and leave table and record as they are,
        // whatever the limit. This comes before the type clash check"
        if from == to && self.shown(from).is_some() {
            return Ok(());
        }
        self.move_to(from, to, limit)
    }

    /// What comes behind that: in document 01, before #104, for equal paths too.
    pub fn move_to(&mut self, from: &str, to: &str, limit: u64) -> Checked {
        let source = self.rename_types(from, to)?;
        let moved = |key: &str| format!("{to}{}", &key[from.len()..]);
        let mut moves = vec![(from.to_owned(), source.clone())];
        if source.kind == 3 {
            let below = self.entries.range(format!("{from}/")..format!("{from}0"));
            moves.extend(below.map(|(key, entry)| (key.clone(), entry.clone())));
            let cost = |(key, _): &(String, Entry)| (2 * key.len() + moved(key).len() + 256) as u64;
            let plan: u64 = moves.iter().skip(1).map(cost).sum();
            let rest = limit.checked_sub(self.charge()).and_then(|rest| rest.checked_sub(plan));
            let budget = rest.ok_or(Answer::refused(11))?;
            if self.listed(from) == Some(Kind::Directory) {
                for path in self.walk(from, budget)? {
                    let entry = self.carried(&path).expect("listed");
                    moves.push((path, entry));
                }
            }
        }
        let left = moves.iter().map(|(key, _)| (key.clone(), Entry::deleted()));
        let come = moves.iter().map(|(key, entry)| (moved(key), entry.clone()));
        self.put(left.chain(come).collect(), limit)
    }
}

impl Side for Model {
    fn call(&mut self, call: &Call, mtime: u64) -> Answer {
        let (path, limit) = (call.path.as_str(), call.limit);
        if !in_form(path) {
            return Answer { number: 3, path: 0, value: 0 };
        }
        let done = match &call.op {
            Op::Exists => return Answer::accepted(u64::from(!matches!(self.shown(path), None | Some(Kind::Link)))),
            Op::IsFile => return Answer::accepted(u64::from(self.shown(path) == Some(Kind::File))),
            Op::IsDir => return Answer::accepted(u64::from(self.shown(path) == Some(Kind::Directory))),
            Op::Write { data } => self.write(path, data, mtime, limit),
            Op::Append { data, more } => {
                let bytes = lent(self.listed_file(path), *more);
                self.append(path, data, &bytes, mtime, limit)
            }
            Op::WriteAt { data, offset } => self.write_at(path, data, *offset, mtime, limit),
            Op::Mkdir { parents, exist_ok } => self.mkdir(path, *parents, *exist_ok, mtime, limit),
            Op::Unlink => self.unlink(path, limit),
            Op::Rmdir => self.rmdir(path, limit),
            Op::Rename { to } if !in_form(to) => Err(Answer { number: 3, path: 1, value: 0 }),
            Op::Rename { to } => self.rename(path, to, limit),
            Op::Show => return Answer::shown(&self.show(path)),
        };
        match (done, &call.op) {
            (Err(refusal), _) => refusal,
            (Ok(()), Op::Write { data } | Op::Append { data, .. } | Op::WriteAt { data, .. }) => {
                Answer::accepted(data.len() as u64)
            }
            (Ok(()), _) => Answer::accepted(0),
        }
    }

    fn entries(&self) -> Entries {
        self.entries.clone()
    }

    fn charge(&self) -> u64 {
        self.rule.charge(&self.entries, self.entry_size)
    }

    fn copy(&self) -> Self {
        self.clone()
    }

    fn load(&mut self, entries: &Entries) {
        self.entries.clone_from(entries);
    }
}
