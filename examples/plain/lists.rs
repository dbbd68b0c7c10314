//! Lists of nodes.

/// A list of nodes.
pub type Nodes = Vec<u32>;

/// Makes a list a node and others after it, cut to the most entries.
pub fn renew(list: &mut Nodes, first: u32, others: &[u32], most: usize) {
    list.clear();
    list.push(first);
    list.extend_from_slice(others);
    list.truncate(most);
}
