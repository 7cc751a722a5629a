fn add
fn sub
