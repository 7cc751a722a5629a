import math.mod
fn split
fn join
fn trim
