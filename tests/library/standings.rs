use bhs_referee::{Outcome, Verdict};
use bhs_standings::{Row, rank, table};
use std::alloc::Global;
use std::test::Fail;

fn row(alloc: Global, team: &str, outcome: Outcome, moves: u32) -> Result<Row, Fail> {
    Ok(Row {
        team: String::from_str(alloc, team)?,
        verdict: Verdict {
            outcome,
            moves,
            lost: 0,
        },
    })
}

#[test]
fn a_table_of_two(rt: HostRuntime) -> Result<(), Fail> {
    let alloc = rt.alloc();
    let rows = [
        row(alloc, "blue", Outcome::Guess { node: 1 }, 0)?,
        row(alloc, "red", Outcome::Solved, 1)?,
    ];
    let places = rank(alloc, &rows)?;
    assert_eq!(rt; places.as_slice(), [1, 0].as_slice());
    let text = table(alloc, &rows)?;
    let expected = "  # team             outcome     moves lost\n\
                    \x20 1 red              solved          1    0\n\
                    \x20 2 blue             guess 1         0    0\n";
    assert_eq!(rt; text.as_str(), expected);
    Ok(())
}
