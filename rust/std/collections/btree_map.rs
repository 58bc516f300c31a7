//! A map in the order of its keys. It stands for `BTreeMap` of Rattle's std.
//!
//! Rust's own makes its nodes by requests that end the process where they are refused, and has no `try_reserve`. The map
//! here is another B-tree, of which each node is a vector. All entries are in its leaves, and a branch has for each of
//! its children the greatest key below it.
use super::super::alloc::{AllocError, AllocFailed, Global};
use std::fmt;
use std::mem;
use std::slice;

/// How many entries a leaf has at most, and how many children a branch has.
const MOST: usize = 64;

/// A map in the order of its keys, whose growth is an error if memory is refused.
///
/// To find, to set or to remove a key takes a number of steps that grows with the logarithm of the number of keys, and
/// moves at most 64 entries in a leaf and 64 children in each branch. A node that gets full is split in half. One that
/// gets empty is removed, but none is merged with another, so what counts for the logarithm is how many keys were added
/// since the map was empty.
pub struct BTreeMap<K, V> {
    root: Node<K, V>,
}

/// A part of the tree. None but the root is empty.
enum Node<K, V> {
    /// Entries in the order of their keys.
    Leaf(Vec<(K, V)>),
    /// Nodes in the order of their keys, all of one height, each with its greatest key.
    Branch(Vec<(K, Node<K, V>)>),
}

impl<K: Ord + Copy, V> BTreeMap<K, V> {
    /// Makes an empty map, which has no memory.
    #[inline]
    pub fn new(_alloc: Global) -> BTreeMap<K, V> {
        BTreeMap { root: Node::empty() }
    }

    /// Returns the value of a key.
    #[inline]
    pub fn get(&self, key: &K) -> Option<&V> {
        let leaf = self.root.leaf_from(|greatest| greatest >= key);
        let place = place_of(leaf, key).ok()?;
        Some(&leaf[place].1)
    }

    /// Returns the value of a key, which may be changed.
    #[inline]
    pub fn get_mut(&mut self, key: &K) -> Option<&mut V> {
        let mut node = &mut self.root;
        loop {
            match node {
                Node::Leaf(entries) => {
                    let place = place_of(entries, key).ok()?;
                    return Some(&mut entries[place].1);
                }
                Node::Branch(children) => {
                    let place = children.partition_point(|(greatest, _)| greatest < key);
                    node = &mut children.get_mut(place)?.1;
                }
            }
        }
    }

    /// Sets the value of a key, and returns the one that it had. If memory is refused, the map has the keys and values
    /// that it had. To set the value of a key that is there takes no memory.
    pub fn insert(&mut self, key: K, value: V) -> Result<Option<V>, AllocFailed<(K, V)>> {
        let mut node = &mut self.root;
        loop {
            match node {
                Node::Leaf(entries) => match place_of(entries, &key) {
                    Ok(place) => return Ok(Some(mem::replace(&mut entries[place].1, value))),
                    Err(place) if entries.len() < MOST => return add(entries, place, key, value).map(|()| None),
                    Err(_) => break,
                },
                Node::Branch(children) => {
                    let place = children.partition_point(|(greatest, _)| *greatest < key);
                    match children.get_mut(place) {
                        Some((_, child)) => node = child,
                        None => break,
                    }
                }
            }
        }
        self.insert_new(key, value).map(|()| None)
    }

    /// Adds a key that isn't there, and splits each full node on the way to its place.
    fn insert_new(&mut self, key: K, value: V) -> Result<(), AllocFailed<(K, V)>> {
        if self.root.is_full() && self.raise().is_err() {
            return Err(AllocFailed { value: (key, value) });
        }
        self.root.add(key, value)
    }

    /// Splits the root, and makes another one above both halves.
    #[cold]
    fn raise(&mut self) -> Result<(), AllocError> {
        let mut children = Vec::new();
        children.try_reserve(2)?;
        let upper = self.root.split()?;
        let lower = mem::replace(&mut self.root, Node::empty());
        children.extend([lower, upper].into_iter().filter_map(Node::with_greatest));
        self.root = Node::Branch(children);
        Ok(())
    }

    /// Removes a key, and returns its value.
    pub fn remove(&mut self, key: &K) -> Option<V> {
        let value = self.root.remove(key)?;
        while let Node::Branch(children) = &mut self.root {
            if children.len() > 1 {
                break;
            }
            self.root = children.pop().map_or(Node::empty(), |(_, only)| only);
        }
        Some(value)
    }

    /// Returns the least key with its value.
    #[inline]
    pub fn first_key_value(&self) -> Option<(&K, &V)> {
        let (key, value) = self.root.leaf_from(|_| true).first()?;
        Some((key, value))
    }

    /// Returns the values in the order of their keys.
    #[inline]
    pub fn values(&self) -> impl Iterator<Item = &V> {
        self.iter().map(|(_, value)| value)
    }

    /// Returns the entries in the order of their keys.
    #[inline]
    pub fn iter(&self) -> Iter<'_, K, V> {
        Iter { root: &self.root, rest: self.root.entries_from(|_| true), last: None }
    }

    /// Returns the entries from a key on, in the order of their keys.
    #[inline]
    pub(super) fn range_from(&self, key: &K) -> Iter<'_, K, V> {
        Iter { root: &self.root, rest: self.root.entries_from(|known| known >= key), last: None }
    }
}

impl<K: Ord + Copy, V> Node<K, V> {
    /// Makes a leaf without entries, which has no memory.
    #[inline]
    fn empty() -> Node<K, V> {
        Node::Leaf(Vec::new())
    }

    /// Returns the leaf of the first key that is far enough, as all behind it are. If there is no such key, it is the only
    /// leaf, or no entries.
    #[inline]
    fn leaf_from(&self, is_far: impl Fn(&K) -> bool) -> &[(K, V)] {
        let mut node = self;
        loop {
            match node {
                Node::Leaf(entries) => return entries,
                Node::Branch(children) => {
                    let place = children.partition_point(|(greatest, _)| !is_far(greatest));
                    match children.get(place) {
                        Some((_, child)) => node = child,
                        None => return &[],
                    }
                }
            }
        }
    }

    /// Returns the entries from the first key on that is far enough, as all behind it are, up to the end of its leaf. No
    /// entries if there is no such key.
    #[inline]
    fn entries_from(&self, is_far: impl Fn(&K) -> bool) -> slice::Iter<'_, (K, V)> {
        let leaf = self.leaf_from(&is_far);
        let place = leaf.partition_point(|(key, _)| !is_far(key));
        leaf[place..].iter()
    }

    /// Returns the greatest key. None if the node is empty.
    #[inline]
    fn greatest(&self) -> Option<K> {
        match self {
            Node::Leaf(entries) => entries.last().map(|(key, _)| *key),
            Node::Branch(children) => children.last().map(|(key, _)| *key),
        }
    }

    /// Returns the node with its greatest key. None if it is empty.
    fn with_greatest(self) -> Option<(K, Node<K, V>)> {
        Some((self.greatest()?, self))
    }

    #[inline]
    fn is_full(&self) -> bool {
        match self {
            Node::Leaf(entries) => entries.len() == MOST,
            Node::Branch(children) => children.len() == MOST,
        }
    }

    /// Moves the upper half of a full node to another one.
    fn split(&mut self) -> Result<Node<K, V>, AllocError> {
        Ok(match self {
            Node::Leaf(entries) => Node::Leaf(split(entries)?),
            Node::Branch(children) => Node::Branch(split(children)?),
        })
    }

    /// Adds an entry whose key isn't there to a node that isn't full.
    fn add(&mut self, key: K, value: V) -> Result<(), AllocFailed<(K, V)>> {
        match self {
            Node::Leaf(entries) => {
                let place = entries.partition_point(|(known, _)| *known < key);
                add(entries, place, key, value)
            }
            Node::Branch(children) => {
                let Ok(place) = place_with_room(children, &key) else {
                    return Err(AllocFailed { value: (key, value) });
                };
                let (greatest, child) = &mut children[place];
                child.add(key, value)?;
                *greatest = key.max(*greatest);
                Ok(())
            }
        }
    }

    /// Removes a key, and returns its value.
    fn remove(&mut self, key: &K) -> Option<V> {
        match self {
            Node::Leaf(entries) => {
                let place = place_of(entries, key).ok()?;
                Some(entries.remove(place).1)
            }
            Node::Branch(children) => {
                let place = children.partition_point(|(greatest, _)| greatest < key);
                let (greatest, child) = children.get_mut(place)?;
                let value = child.remove(key)?;
                match child.greatest() {
                    Some(key) => *greatest = key,
                    None => _ = children.remove(place),
                }
                Some(value)
            }
        }
    }
}

/// Returns where in a leaf the entry of a key is, or where it belongs.
#[inline]
fn place_of<K: Ord, V>(leaf: &[(K, V)], key: &K) -> Result<usize, usize> {
    leaf.binary_search_by(|(known, _)| known.cmp(key))
}

/// Adds an entry to a leaf in its place.
#[inline]
fn add<K, V>(leaf: &mut Vec<(K, V)>, place: usize, key: K, value: V) -> Result<(), AllocFailed<(K, V)>> {
    if leaf.try_reserve(1).is_err() {
        return Err(AllocFailed { value: (key, value) });
    }
    leaf.insert(place, (key, value));
    Ok(())
}

/// Returns the place of the child to which a key belongs, which is split if it is full. If memory is refused, none is.
fn place_with_room<K: Ord + Copy, V>(children: &mut Vec<(K, Node<K, V>)>, key: &K) -> Result<usize, AllocError> {
    let last = children.len() - 1;
    let place = children[..last].partition_point(|(greatest, _)| greatest < key);
    if !children[place].1.is_full() {
        return Ok(place);
    }
    children.try_reserve(1)?;
    let (greatest, lower) = &mut children[place];
    let upper = (*greatest, lower.split()?);
    *greatest = lower.greatest().unwrap_or(*greatest);
    let is_above = *greatest < *key;
    children.insert(place + 1, upper);
    Ok(place + usize::from(is_above))
}

/// Moves the upper half of a full node's list to another one, which has room for as many.
fn split<T>(items: &mut Vec<T>) -> Result<Vec<T>, AllocError> {
    let mut upper = Vec::new();
    upper.try_reserve_exact(MOST)?;
    upper.extend(items.drain(MOST / 2..));
    Ok(upper)
}

impl<K: fmt::Debug + Ord + Copy, V: fmt::Debug> fmt::Debug for BTreeMap<K, V> {
    fn fmt(&self, f: &mut fmt::Formatter<'_>) -> fmt::Result {
        f.debug_map().entries(self.iter()).finish()
    }
}

/// The entries of a map in the order of their keys.
pub struct Iter<'a, K, V> {
    root: &'a Node<K, V>,
    // What is left of a leaf.
    rest: slice::Iter<'a, (K, V)>,
    // The key that was returned last.
    last: Option<&'a K>,
}

impl<'a, K: Ord + Copy, V> Iterator for Iter<'a, K, V> {
    type Item = (&'a K, &'a V);

    #[inline]
    fn next(&mut self) -> Option<(&'a K, &'a V)> {
        if self.rest.len() == 0 {
            let last = self.last?;
            self.rest = self.root.entries_from(|key| key > last);
        }
        let (key, value) = self.rest.next()?;
        self.last = Some(key);
        Some((key, value))
    }
}
