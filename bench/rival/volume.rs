// Folders and files. A node's number is its index among the nodes; the names stand one after another in one list.
use crate::names;
use crate::numbers::Numbers;
use crate::places::Places;
use crate::quotas::Quota;
use crate::screens::Guard;
use crate::templates::Auto;
use crate::text;

pub const ROOT: u32 = 0;
// the root's parent
pub const NOWHERE: u32 = u32::MAX;
pub const MOST_NODES: usize = 65_536;
pub const MOST_NAMES: usize = 4_194_304;
const CLUSTER: u64 = 4_096;

#[derive(Default)]
pub struct Node {
    pub parent: u32,
    // its index among the parent's children
    place: u32,
    name: u32,
    name_bytes: u8,
    pub length: u64,
    // none of a file
    pub folder: Option<Box<Folder>>,
    pub stamps: Stamps,
}

// No command shows these yet.
#[derive(Clone, Copy, Default)]
#[allow(dead_code)]
pub struct Stamps {
    pub owner: u32,
    pub created: u32,
    pub modified: u32,
    pub accessed: u32,
}

#[derive(Default)]
pub struct Folder {
    pub children: Vec<u32>,
    // the number of the scan that visited it, or of an older one
    pub visited_by: u32,
    pub quota: Option<Quota>,
    pub guard: Option<Box<Guard>>,
    pub auto: Option<Box<Auto>>,
}

pub struct Volume {
    nodes: Vec<Node>,
    free: Numbers,
    places: Places,
    names: Vec<u8>,
    // so many of these bytes are a node's name
    named: usize,
}

impl Stamps {
    fn new(owner: u32, moment: u32) -> Stamps {
        Stamps { owner, created: moment, modified: moment, accessed: moment }
    }
}

impl Node {
    pub fn new_file(length: u64, owner: u32, moment: u32) -> Node {
        Node { length, stamps: Stamps::new(owner, moment), ..Node::default() }
    }

    pub fn new_folder(folder: Folder, owner: u32, moment: u32) -> Node {
        Node { folder: Some(Box::new(folder)), stamps: Stamps::new(owner, moment), ..Node::default() }
    }

    pub fn allocated(&self) -> u64 {
        allocated(self.length)
    }
}

pub fn allocated(length: u64) -> u64 {
    length.next_multiple_of(CLUSTER)
}

impl Volume {
    pub fn new() -> Volume {
        let root = Node { parent: NOWHERE, ..Node::new_folder(Folder::default(), 1, 0) };
        Volume { nodes: vec![root], free: Numbers::new(), places: Places::new(), names: Vec::new(), named: 0 }
    }

    pub fn node(&self, number: u32) -> &Node {
        &self.nodes[number as usize]
    }

    pub fn node_mut(&mut self, number: u32) -> &mut Node {
        &mut self.nodes[number as usize]
    }

    pub fn folder(&self, number: u32) -> &Folder {
        self.node(number).folder.as_ref().expect("a folder")
    }

    pub fn folder_mut(&mut self, number: u32) -> &mut Folder {
        self.node_mut(number).folder.as_mut().expect("a folder")
    }

    pub fn name(&self, node: &Node) -> &[u8] {
        &self.names[node.name as usize..][..node.name_bytes as usize]
    }

    pub fn child(&self, folder: u32, name: &[u8]) -> Option<u32> {
        self.places.find(names::hash(folder, name), |number| {
            let node = self.node(number);
            node.parent == folder && names::same(self.name(node), name)
        })
    }

    // The node to which the names of a path lead.
    pub fn find(&self, path: &[u8]) -> Option<u32> {
        if path.is_empty() {
            return Some(ROOT);
        }
        text::parts(path).try_fold(ROOT, |folder, name| self.child(folder, name))
    }

    // A folder and all above it, up to another one that doesn't belong to it.
    pub fn way_up(&self, from: u32, until: u32) -> impl Iterator<Item = u32> + '_ {
        let above = move |number: u32| (number != until).then_some(number);
        std::iter::successors(above(from), move |number| above(self.node(*number).parent))
    }

    // The deepest folder that is at or above both.
    pub fn meeting(&self, one: u32, other: u32) -> u32 {
        let (mut one, mut other) = (one, other);
        let (depth, other_depth) = (self.way_up(one, NOWHERE).count(), self.way_up(other, NOWHERE).count());
        for _ in other_depth..depth {
            one = self.node(one).parent;
        }
        for _ in depth..other_depth {
            other = self.node(other).parent;
        }
        while one != other {
            (one, other) = (self.node(one).parent, self.node(other).parent);
        }
        one
    }

    pub fn node_count(&self) -> usize {
        self.nodes.len() - self.free.iter().count()
    }

    pub fn name_bytes(&self) -> usize {
        self.named
    }

    pub fn has_room(&self) -> bool {
        self.nodes.len() < MOST_NODES || self.free.least().is_some()
    }

    // Whether a name fits, if so many bytes are given back first.
    pub fn has_room_for(&self, name: &[u8], given_back: usize) -> bool {
        self.named - given_back + name.len() <= MOST_NAMES
    }

    // Makes a node, and tells its number.
    pub fn make(&mut self, folder: u32, name: &[u8], node: Node) -> u32 {
        let number = self.free.pop_least().unwrap_or(self.nodes.len() as u32);
        if number as usize == self.nodes.len() {
            self.nodes.push(node);
        } else {
            self.nodes[number as usize] = node;
        }
        self.put(number, folder, name);
        number
    }

    pub fn relocate(&mut self, number: u32, folder: u32, name: &[u8]) {
        self.take_out(number);
        self.put(number, folder, name);
    }

    pub fn remove(&mut self, number: u32) {
        self.take_out(number);
        self.node_mut(number).folder = None;
        self.free.insert(number);
    }

    fn put(&mut self, number: u32, folder: u32, name: &[u8]) {
        self.gather();
        let at = self.names.len() as u32;
        self.names.extend_from_slice(name);
        self.named += name.len();
        self.places.insert(names::hash(folder, name), number);
        let children = &mut self.folder_mut(folder).children;
        let place = children.len() as u32;
        children.push(number);
        let node = self.node_mut(number);
        (node.parent, node.place) = (folder, place);
        (node.name, node.name_bytes) = (at, name.len() as u8);
    }

    fn take_out(&mut self, number: u32) {
        let node = self.node(number);
        let (parent, place, hash) = (node.parent, node.place, names::hash(node.parent, self.name(node)));
        self.places.remove(hash, number);
        let children = &mut self.folder_mut(parent).children;
        children.swap_remove(place as usize);
        if let Some(moved) = children.get(place as usize).copied() {
            self.node_mut(moved).place = place;
        }
        self.named -= self.node(number).name_bytes as usize;
        self.node_mut(number).name_bytes = 0;
    }

    // Makes the list of names anew if more than half of it belongs to no node.
    fn gather(&mut self) {
        if self.names.len() <= 2 * self.named + 65_536 {
            return;
        }
        let mut names = Vec::with_capacity(2 * self.named);
        for node in &mut self.nodes {
            let name = &self.names[node.name as usize..][..node.name_bytes as usize];
            node.name = names.len() as u32;
            names.extend_from_slice(name);
        }
        self.names = names;
    }

    // What all files at and below a node take.
    pub fn usage(&self, number: u32) -> u64 {
        if self.node(number).folder.is_none() {
            return self.node(number).allocated();
        }
        let (mut sum, mut left) = (0, vec![number]);
        while let Some(number) = left.pop() {
            for child in &self.folder(number).children {
                match &self.node(*child).folder {
                    Some(_) => left.push(*child),
                    None => sum += self.node(*child).allocated(),
                }
            }
        }
        sum
    }
}
