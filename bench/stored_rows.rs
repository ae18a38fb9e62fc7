//! Stored rows of a printed table of links, and what a search over them keeps of each node, for `time_search.rs` and `time_nearest.rs`.

#[derive(Clone, Copy)]
pub struct Out {
    pub to: u32,
    pub cost: u32,
}

pub struct Rows {
    pub starts: Vec<u32>,
    pub out: Vec<Out>,
}

pub fn number(word: Option<&str>) -> u32 {
    word.expect("a number").parse().expect("a number")
}

pub fn read(text: &str) -> Rows {
    let (mut nodes, mut links) = (0, Vec::new());
    for line in text.lines() {
        let mut words = line.split(' ');
        match words.next() {
            Some("node") => nodes += 1,
            Some("link") => links.push((number(words.next()), number(words.next()), number(words.next()))),
            _ => {}
        }
    }
    let mut starts = vec![0u32; nodes + 1];
    for (from, _, _) in &links {
        starts[*from as usize + 1] += 1;
    }
    for n in 0..nodes {
        starts[n + 1] += starts[n];
    }
    let mut next = starts.clone();
    let mut out = vec![Out { to: 0, cost: 0 }; links.len()];
    for (from, to, cost) in &links {
        let place = &mut next[*from as usize];
        out[*place as usize] = Out { to: *to, cost: *cost };
        *place += 1;
    }
    Rows { starts, out }
}

pub struct Label {
    pub cost: u64,
    pub last: u32,
    pub from: u32,
    pub settled: bool,
}

/// The links back from a node to the start of the search, in their order from there.
pub fn walk_to(labels: &[Label], from: u32, to: u32) -> Vec<u32> {
    let mut walk = Vec::new();
    let mut at = to;
    while at != from {
        walk.push(labels[at as usize].last);
        at = labels[at as usize].from;
    }
    walk.reverse();
    walk
}

/// A label for each node, none of which is reached.
pub fn labels_of(nodes: usize) -> Vec<Label> {
    (0..nodes).map(|_| Label { cost: u64::MAX, last: u32::MAX, from: u32::MAX, settled: false }).collect()
}
