import text.mod
import math.mod
fn main
fn run
