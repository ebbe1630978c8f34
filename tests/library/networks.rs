//! Networks.

use super::triangle::network;
use std::test::Fail;

#[test]
fn a_copy_leads_where_the_network_leads(rt: HostRuntime) -> Result<(), Fail> {
    let copy = network(rt.alloc())?.try_clone(rt.alloc())?;
    assert_eq!(rt; (copy.nodes(), copy.links()), (3, 3));
    let ends = [[(1, 0), (2, 1)], [(0, 0), (2, 0)], [(1, 1), (0, 1)]];
    for (node, far) in (0..3).zip(ends) {
        assert_eq!(rt; copy.degree(node), 2);
        assert_eq!(rt; [copy.far(node, 0), copy.far(node, 1)], far);
    }
    Ok(())
}
