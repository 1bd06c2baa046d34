//! Stores: the verdict, edits, and records to and from bytes.

use jorghipa::*;

/// 01's example at the front of a space: S in records 1 to 4, a box in record 5.
fn example_space() -> Vec<u8> {
    let mut space = vec![0xee; SPACE];
    space[..240].copy_from_slice(include_bytes!("../../../crates/listing/stdin"));
    space
}

fn vertex(next: u32, z: f64, radius: f64) -> Record {
    Record { next, content: Content::Vertex(Vertex { z, radius }) }
}

fn ball(next: u32) -> Record {
    let center = Point { x: 0.0, y: 0.0, z: 30.0 };
    Record { next, content: Content::Sphere(Sphere { center, radius: 4.0 }) }
}

#[test]
fn stores() {
    let mut space = example_space();
    assert_eq!(read_store(&space[..240]), Ok(()));
    assert_eq!(read_store(&space[..239]), Err(RefusedStore { refusal: Refusal::from(12), record: 0 }));
    let content = Content::Box(Aabb { z0: 26.0, z1: 30.0, r0: 0.0, r1: 5.0 });
    let box_26 = Record { next: 0, content };
    assert_eq!(replace(&mut space, 240, Role::Operator, 5, &box_26), Ok(240));
    assert_eq!(space[200..240], box_26.to_bytes());
    assert_eq!(add(&mut space, 240, Role::Operator, &ball(7)), Ok(280));
    assert_eq!(space[200..204], [6, 0, 0, 0]);
    assert_eq!(space[240..280], ball(0).to_bytes());
    assert_eq!(space[280..], vec![0xee; SPACE - 280]);
}

#[test]
fn refused_edits() {
    let start = example_space();
    let (corner, sphere) = (vertex(5, 0.0, 1.0), ball(0));
    let other = Record { next: 0, content: Content::Other { kind: 7, numbers: [0.0; 4] } };
    let mut space = start.clone();
    for (role, place, record, number) in [
        (Role::Operator, 6, &sphere, 24),
        (Role::Operator, 4, &corner, 22),
        (Role::Operator, 5, &corner, 22),
        (Role::Operator, 5, &ball(2), 22),
        (Role::Setter, 5, &ball(2), 13),
        (Role::Setter, 5, &other, 14),
        (Role::Setter, 4, &vertex(5, 0.0, -1.0), 6),
    ] {
        assert_eq!(replace(&mut space, 240, role, place, record), Err(Refusal::from(number)));
    }
    for (length, number) in [(0, 15), (41, 12), (20_520, 16), (usize::MAX, 12), (200, 13)] {
        assert_eq!(add(&mut space, length, Role::Setter, &sphere), Err(Refusal::from(number)));
    }
    assert_eq!(add(&mut space, 240, Role::Operator, &corner), Err(Refusal::from(22)));
    assert_eq!(add(&mut space[1..], 240, Role::Setter, &sphere), Err(Refusal::from(12)));
    assert_eq!(space, start);
    let told = RefusedStore { refusal: Refusal::from(13), record: 4 };
    assert_eq!(read_store(&space[..200]), Err(told));
    assert!(told.to_string().starts_with("refused 13: next past the end of the store, or a record twice; "));
    assert!(told.to_string().ends_with(", at record 4"));
}

/// The example's records, and kinds and numbers that are ignored or unknown.
#[test]
fn records_and_bytes() {
    let space = example_space();
    let (records, _) = space[..240].as_chunks::<RECORD>();
    assert_eq!(Record::from_bytes(&records[0]), Record { next: 1, content: Content::Start });
    assert_eq!(Record::from_bytes(&records[2]), vertex(3, 20.0, 10.0));
    let bounds = Aabb { z0: 25.0, z1: 30.0, r0: 0.0, r1: 5.0 };
    assert_eq!(Record::from_bytes(&records[5]), Record { next: 0, content: Content::Box(bounds) });
    for bytes in records {
        assert_eq!(Record::from_bytes(bytes).to_bytes(), *bytes);
    }
    assert_eq!(Record::from_bytes(&ball(7).to_bytes()), ball(7));
    let unknown = Record { next: u32::MAX, content: Content::Other { kind: 4, numbers: [1.0, -2.0, 0.5, 1e300] } };
    assert_eq!(Record::from_bytes(&unknown.to_bytes()), unknown);
    let mut ignored = vertex(1, 2.0, 3.0).to_bytes();
    ignored[24..].fill(0xff);
    assert_eq!(Record::from_bytes(&ignored), vertex(1, 2.0, 3.0));
}
