import circle.mod
fn back
