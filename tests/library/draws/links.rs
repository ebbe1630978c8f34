use super::super::triangle::network;
use bhs_deliveries::{Held, HeldFault};
use std::test::Fail;

#[test]
fn a_pair_that_is_no_port_is_refused(rt: HostRuntime) -> Result<(), Fail> {
    let alloc = rt.alloc();
    let net = network(alloc)?;
    for (pairs, fault) in [
        (&[(0, 2)][..], Some(HeldFault::At { index: 0 })),
        (&[(0, 1), (0, 1)][..], None),
        (&[(0, 1), (3, 0)][..], Some(HeldFault::At { index: 1 })),
        (
            &[(0, 1), (3, 0), (0, 2)][..],
            Some(HeldFault::At { index: 1 }),
        ),
        (&[(1, 65535), (3, 0)][..], Some(HeldFault::At { index: 0 })),
        (
            &[(2, 1), (1, 0), (65535, 0)][..],
            Some(HeldFault::At { index: 2 }),
        ),
        (&[][..], None),
    ] {
        assert_eq!(rt; Held::new(alloc, &net, pairs).err(), fault);
    }
    Ok(())
}

#[test]
fn a_held_link_is_held_in_one_direction(rt: HostRuntime) -> Result<(), Fail> {
    let alloc = rt.alloc();
    let net = network(alloc)?;
    let held = Held::new(alloc, &net, &[(0, 1), (1, 0), (0, 1)])?;
    for (node, port, is_held) in [
        (0, 1, true),
        (1, 0, true),
        (2, 1, false),
        (0, 0, false),
        (1, 1, false),
        (2, 0, false),
        (0, 2, false),
        (3, 0, false),
        (65535, 65535, false),
    ] {
        assert_eq!(rt; held.has(node, port), is_held);
    }
    Ok(())
}

#[test]
fn faults_are_told_by_their_place(rt: HostRuntime) -> Result<(), Fail> {
    let alloc = rt.alloc();
    let strange = HeldFault::At { index: 3 };
    assert_eq!(rt; format!(in alloc; "{strange}")?.as_str(), "held link 3");
    let memory = HeldFault::from(std::alloc::AllocError);
    assert_eq!(rt; memory, HeldFault::Memory);
    assert_eq!(rt; format!(in alloc; "{memory}")?.as_str(), "memory");
    Ok(())
}
