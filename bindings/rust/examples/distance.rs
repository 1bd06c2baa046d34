//! A bar of radius 10 and length 20, and a tool holder 5 mm beside its end.

use jorghipa::{Aabb, Hit, Refusal, Section, Vertex};

fn main() -> Result<(), Refusal> {
    let bar = Section::build_section(&Vertex::list(&[[0.0, 10.0], [20.0, 10.0]]))?;
    let hit = bar.aabb(Aabb { z0: 25.0, z1: 30.0, r0: 0.0, r1: 5.0 })?;
    let Hit { distance, witness_z, witness_radius, edge } = hit;
    println!("distance {distance}, nearest to z {witness_z}, radius {witness_radius}, edge {edge}");
    Ok(())
}
