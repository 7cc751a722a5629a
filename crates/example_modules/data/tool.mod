import text.mod
import files.mod
fn tool
