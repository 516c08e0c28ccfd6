//! A table and its labelling as plain data, with the limits of the specification.

pub mod growth;
pub mod inventory;
pub mod order;
pub mod places;
pub mod shuffle;
pub mod solver;
pub mod statistics;
pub mod text;
pub mod trees;

pub const COST: u64 = 0;
pub const DAYS: u64 = 1;
pub const GRADE: u64 = 2;
pub const MEASURES: [u64; 3] = [COST, DAYS, GRADE];

pub const MOST_VERTICES: u64 = 1_024;
pub const MOST_EDGES: usize = 4_096;
pub const LONGEST_TAIL: usize = 16;
pub const MOST_TAILS: usize = 16_384;

pub const GREATEST: u64 = 1_000_000_000;
pub const CEILING: u64 = 1_000_000_000_000;
pub const OVER: u64 = 1_000_000_000_001;
pub const MOST_PIECES: u64 = 1_000_000_000;

/// The strike marks.
pub const STANDS: u64 = 0;
pub const STRUCK: u64 = 1;
pub const MARKS: [u64; 2] = [STANDS, STRUCK];

/// The five columns as they are lent; they need not be an accepted table.
#[derive(Clone, PartialEq)]
pub struct Table {
    pub n: u64,
    pub heads: Vec<u64>,
    pub own: Vec<u64>,
    pub strikes: Vec<u64>,
    pub spans: Vec<u64>,
    pub tails: Vec<u64>,
}

impl Table {
    pub fn new(n: u64) -> Table {
        Table { n, heads: vec![], own: vec![], strikes: vec![], spans: vec![], tails: vec![] }
    }

    /// The hyperedges as head, own weight and tail, with no gaps; all stand.
    pub fn of<Tail: AsRef<[u64]>>(n: u64, edges: &[(u64, u64, Tail)]) -> Table {
        let mut table = Table::new(n);
        for (head, own, tail) in edges {
            table.push(*head, *own, tail.as_ref());
        }
        table
    }

    /// Adds a hyperedge whose span follows `gap`, which belongs to no span.
    pub fn push_after(&mut self, gap: &[u64], head: u64, own: u64, mark: u64, tail: &[u64]) {
        self.tails.extend_from_slice(gap);
        self.heads.push(head);
        self.own.push(own);
        self.strikes.push(mark);
        self.spans.push(self.tails.len() as u64);
        self.spans.push(tail.len() as u64);
        self.tails.extend_from_slice(tail);
    }

    pub fn push_marked(&mut self, head: u64, own: u64, mark: u64, tail: &[u64]) {
        self.push_after(&[], head, own, mark, tail);
    }

    pub fn push(&mut self, head: u64, own: u64, tail: &[u64]) {
        self.push_marked(head, own, STANDS, tail);
    }

    pub fn edges(&self) -> usize {
        self.heads.len()
    }

    pub fn tail(&self, edge: usize) -> &[u64] {
        let offset = self.spans[2 * edge] as usize;
        let length = self.spans[2 * edge + 1] as usize;
        &self.tails[offset..offset + length]
    }

    pub fn is_live(&self, edge: usize) -> bool {
        self.strikes[edge] != STRUCK
    }

    /// The columns on one line. A long table is told by its sizes: seed and case make it again.
    pub fn describe(&self) -> String {
        let sizes = self.columns().map(Vec::len);
        if sizes.iter().sum::<usize>() > 1_000 {
            return format!("n={} and columns of {sizes:?} places", self.n);
        }
        format!(
            "n={} heads={:?} own={:?} strikes={:?} spans={:?} tails={:?}",
            self.n, self.heads, self.own, self.strikes, self.spans, self.tails
        )
    }

    pub fn columns(&self) -> [&Vec<u64>; 5] {
        [&self.heads, &self.own, &self.strikes, &self.spans, &self.tails]
    }

    pub fn columns_mut(&mut self) -> [&mut Vec<u64>; 5] {
        let Table { heads, own, strikes, spans, tails, .. } = self;
        [heads, own, strikes, spans, tails]
    }
}

/// What is asked of one hyperedge, which need not exist.
#[derive(Clone, Copy, Debug)]
pub enum Change {
    /// The hyperedge and its new own weight.
    Reprice(u64, u64),
    Strike(u64),
    Restore(u64),
}

impl Change {
    pub fn edge(&self) -> u64 {
        match *self {
            Change::Reprice(edge, _) | Change::Strike(edge) | Change::Restore(edge) => edge,
        }
    }
}

#[derive(Clone, Copy, PartialEq, Debug)]
pub struct Label {
    pub weight: u64,
    pub depth: u64,
    pub edge: u64,
    pub pieces: u64,
}

pub const UNMADE: Label = Label { weight: 0, depth: 0, edge: 0, pieces: 0 };

/// The four answer columns; lent ones may hold anything and differ in length.
#[derive(Clone, PartialEq, Debug)]
pub struct Labelling {
    pub weights: Vec<u64>,
    pub depths: Vec<u64>,
    pub edges: Vec<u64>,
    pub pieces: Vec<u64>,
}

impl Labelling {
    pub fn of(labels: &[Label]) -> Labelling {
        Labelling {
            weights: labels.iter().map(|label| label.weight).collect(),
            depths: labels.iter().map(|label| label.depth).collect(),
            edges: labels.iter().map(|label| label.edge).collect(),
            pieces: labels.iter().map(|label| label.pieces).collect(),
        }
    }

    pub fn unmade(n: u64) -> Labelling {
        Labelling::of(&vec![UNMADE; n as usize])
    }

    /// A vertex beyond a column reads 0 there.
    pub fn label(&self, vertex: u64) -> Label {
        let read = |column: &[u64]| {
            let index = usize::try_from(vertex).ok();
            index.and_then(|index| column.get(index)).copied().unwrap_or(0)
        };
        Label {
            weight: read(&self.weights),
            depth: read(&self.depths),
            edge: read(&self.edges),
            pieces: read(&self.pieces),
        }
    }

    pub fn set(&mut self, vertex: usize, label: Label) {
        self.weights[vertex] = label.weight;
        self.depths[vertex] = label.depth;
        self.edges[vertex] = label.edge;
        self.pieces[vertex] = label.pieces;
    }

    pub fn columns_mut(&mut self) -> [&mut Vec<u64>; 4] {
        [&mut self.weights, &mut self.depths, &mut self.edges, &mut self.pieces]
    }

    pub fn lengths(&self) -> [usize; 4] {
        [self.weights.len(), self.depths.len(), self.edges.len(), self.pieces.len()]
    }

    pub fn describe(&self) -> String {
        if self.lengths().iter().sum::<usize>() > 100 {
            return format!("answer columns of {:?} places", self.lengths());
        }
        format!(
            "weights={:?} depths={:?} edges={:?} pieces={:?}",
            self.weights, self.depths, self.edges, self.pieces
        )
    }
}
