//! Stores for the tests.

use jorghipa::{Content, Record, Vertex};

/// Forty bytes of this next, kind and numbers.
pub fn record(next: u32, kind: u32, numbers: [f64; 4]) -> [u8; 40] {
    Record { next, content: Content::Other { kind, numbers } }.to_bytes()
}

/// The store `examples/bodies.store`: section S, spheres and boxes.
pub fn bodies() -> Vec<u8> {
    include_bytes!("../../../examples/bodies.store").to_vec()
}

/// The store `examples/chuck.store`: chuck, jaws and work in 20 vertices, and seven bodies.
pub fn chuck() -> Vec<u8> {
    include_bytes!("../../../examples/chuck.store").to_vec()
}

/// A store of these vertices, in records 1 on, and then these records' kinds and numbers.
pub fn store(vertices: &[[f64; 2]], bodies: &[(u32, [f64; 4])]) -> Vec<u8> {
    let count = (vertices.len() + bodies.len()) as u32;
    let contents = vertices.iter().map(|&[z, radius]| (1, [z, radius, 0.0, 0.0])).chain(bodies.iter().copied());
    let chained = contents.zip(2..).map(|((kind, numbers), next)| record(next % (count + 1), kind, numbers));
    std::iter::once(record(1, 0, [0.0; 4])).chain(chained).flatten().collect()
}

/// These vertices with the records 1 on.
pub fn numbered(vertices: &[[f64; 2]]) -> Vec<(u32, Vertex)> {
    (1..).zip(Vertex::list(vertices)).collect()
}
