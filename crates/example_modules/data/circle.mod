import round.mod
fn there
