//! The room table, word by word: refusals 4 to 8; and the words of a table again. Version 2 (request
//! A.3) has a percent for each node, and version 3 (request A.11) shares of ten thousand: both came later,
//! from document 02 and by the product's own hand.

use crate::Refusal;

/// All versions from 1 to this one are read.
pub(crate) const NEWEST_VERSION: u32 = 3;
const MOST_WATTS: u32 = 16_777_215;
pub(crate) const MOST_NODES: u32 = 512;
pub(crate) const MOST_SERVERS: u32 = 512;
pub(crate) const MOST_CORDS: u32 = 1_024;

/// A table as it is written, entry by entry.
#[derive(Clone, Debug, PartialEq, Eq)]
pub struct Table {
    pub version: u32,
    /// What a server's shares sum to.
    pub whole: u32,
    pub nodes: Vec<NodeEntry>,
    pub servers: Vec<ServerEntry>,
}

#[derive(Clone, Copy, Debug, PartialEq, Eq)]
pub struct NodeEntry {
    pub parent: u32,
    pub rating: u32,
    /// What the node may carry of its rating.
    pub percent: u32,
}

#[derive(Clone, Debug, PartialEq, Eq)]
pub struct ServerEntry {
    pub rank: u32,
    pub least: u32,
    pub greatest: u32,
    pub cords: Vec<CordEntry>,
}

#[derive(Clone, Copy, Debug, PartialEq, Eq)]
pub struct CordEntry {
    pub node: u32,
    pub share: u32,
}

/// A word of a table, and what hangs on what by it.
#[derive(Clone, Copy, Debug, PartialEq, Eq)]
pub enum Word {
    Figure(u32),
    /// The node with this number hangs on its parent, or (0) on none.
    Parent {
        node: u32,
        parent: u32,
    },
    /// A cord of the server at this place hangs on the node.
    Cord {
        server: usize,
        node: u32,
    },
}

impl Word {
    pub fn value(self) -> u32 {
        match self {
            Word::Figure(figure) => figure,
            Word::Parent { parent, .. } => parent,
            Word::Cord { node, .. } => node,
        }
    }
}

impl Table {
    pub fn of_words(words: &[u32]) -> Result<Table, Refusal> {
        let mut reader = Reader { words, index: 0 };
        let version = reader.next(1, NEWEST_VERSION)?;
        let whole = match version {
            3 => 10_000,
            _ => 1_000,
        };
        let nodes = reader.nodes(version)?;
        let servers = reader.servers(nodes.len() as u32, whole)?;
        reader.end()?;
        Ok(Table {
            version,
            whole,
            nodes,
            servers,
        })
    }

    pub fn words(&self) -> Vec<u32> {
        self.said().into_iter().map(Word::value).collect()
    }

    /// The words in order, each with what it says.
    pub fn said(&self) -> Vec<Word> {
        let head = [self.version, self.nodes.len() as u32].map(Word::Figure);
        let mut said = head.to_vec();
        for (number, node) in (1..).zip(&self.nodes) {
            said.extend(node.said(number, self.version));
        }
        said.push(Word::Figure(self.servers.len() as u32));
        for (place, server) in self.servers.iter().enumerate() {
            said.extend(server.said(place));
        }
        said
    }

    pub fn cord_count(&self) -> usize {
        self.servers.iter().map(|server| server.cords.len()).sum()
    }

    /// The table with every number of a node changed; 0 is none.
    pub fn renumbered(mut self, change: impl Fn(u32) -> u32) -> Table {
        let parents = self.nodes.iter_mut().map(|node| &mut node.parent);
        let cords = self.servers.iter_mut().flat_map(|server| &mut server.cords);
        let numbers = parents.chain(cords.map(|cord| &mut cord.node));
        for number in numbers.filter(|number| **number != 0) {
            *number = change(*number);
        }
        self
    }
}

impl NodeEntry {
    fn said(&self, node: u32, version: u32) -> Vec<Word> {
        let parent = self.parent;
        let mut said = vec![Word::Parent { node, parent }, Word::Figure(self.rating)];
        if version != 1 {
            said.push(Word::Figure(self.percent));
        }
        said
    }
}

impl ServerEntry {
    fn said(&self, server: usize) -> Vec<Word> {
        let count = self.cords.len() as u32;
        let own = [self.rank, self.least, self.greatest, count].map(Word::Figure);
        let mut said = own.to_vec();
        for &CordEntry { node, share } in &self.cords {
            said.extend([Word::Cord { server, node }, Word::Figure(share)]);
        }
        said
    }
}

struct Reader<'a> {
    words: &'a [u32],
    index: usize,
}

impl Reader<'_> {
    /// The next word, which must lie from `lowest` to `highest`.
    fn next(&mut self, lowest: u32, highest: u32) -> Result<u32, Refusal> {
        let Some(&word) = self.words.get(self.index) else {
            return Err(Refusal::new(4, self.words.len()));
        };
        if word < lowest || word > highest {
            return Err(Refusal::new(5, self.index));
        }
        self.index += 1;
        Ok(word)
    }

    fn nodes(&mut self, version: u32) -> Result<Vec<NodeEntry>, Refusal> {
        let count = self.next(1, MOST_NODES)?;
        (1..=count)
            .map(|number| self.node(version, number))
            .collect()
    }

    fn node(&mut self, version: u32, number: u32) -> Result<NodeEntry, Refusal> {
        Ok(NodeEntry {
            parent: self.next(0, number - 1)?,
            rating: self.next(0, MOST_WATTS)?,
            percent: match version {
                1 => 80,
                _ => self.percent()?,
            },
        })
    }

    fn percent(&mut self) -> Result<u32, Refusal> {
        match self.next(0, u32::MAX)? {
            percent @ (80 | 100) => Ok(percent),
            _ => Err(Refusal::new(5, self.index - 1)),
        }
    }

    fn servers(&mut self, nodes: u32, whole: u32) -> Result<Vec<ServerEntry>, Refusal> {
        let count = self.next(0, MOST_SERVERS)?;
        let mut cords_left = MOST_CORDS;
        let mut servers = Vec::new();
        for _ in 0..count {
            let server = self.server(nodes, whole, cords_left)?;
            cords_left -= server.cords.len() as u32;
            servers.push(server);
        }
        Ok(servers)
    }

    fn server(&mut self, nodes: u32, whole: u32, cords_left: u32) -> Result<ServerEntry, Refusal> {
        let start = self.index;
        let rank = self.next(1, 16)?;
        let least = self.next(0, MOST_WATTS)?;
        let greatest = self.next(0, MOST_WATTS)?;
        if greatest < least {
            return Err(Refusal::new(6, self.index - 1));
        }
        let count = self.next(1, cords_left.min(4))?;
        let cords = (0..count)
            .map(|_| self.cord(nodes, whole))
            .collect::<Result<Vec<_>, _>>()?;
        if cords.iter().map(|cord| cord.share).sum::<u32>() != whole {
            return Err(Refusal::new(7, start));
        }
        Ok(ServerEntry {
            rank,
            least,
            greatest,
            cords,
        })
    }

    fn cord(&mut self, nodes: u32, whole: u32) -> Result<CordEntry, Refusal> {
        Ok(CordEntry {
            node: self.next(1, nodes)?,
            share: self.next(0, whole)?,
        })
    }

    fn end(&self) -> Result<(), Refusal> {
        if self.index < self.words.len() {
            return Err(Refusal::new(8, self.index));
        }
        Ok(())
    }
}
