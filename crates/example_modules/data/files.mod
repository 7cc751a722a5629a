import text.mod
fn read
