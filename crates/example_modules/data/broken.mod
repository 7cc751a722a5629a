import nowhere.mod
fn lost
