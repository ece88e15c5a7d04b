//! Generated formulas: shapes that a rulebook has, formulas at random, and knots that are hard to unfold.

use crate::random::Random;

const SHAPES: [&str; 40] = [
    "a", "! a", "F a", "G a", "F ! a", "G ! a", "G | ! a b", "G ! & a b", "G | ! a X b", "G | ! a W b", "G | ! a F b", "G | ! a X F b",
    "G | ! a W G ! a", "G | ! a W L", "U a b", "U ! a b", "R a b", "R a ! b", "U a & b X c", "R & a b | c W L", "X X a", "X X X T", "! X X X T",
    "W W W L", "F & a X b", "F & a X F b", "F & a X X X b", "G | W L a", "G | W L | a b", "G F a", "F G a", "| G a F b", "& F a F ! a",
    "G | | a b X c", "G | ! a U b c", "F & a W L", "U a U b c", "R R a b c", "G | a X a", "G | & a X ! a & ! a X a",
];

/// Shapes that no history of any length meets, or that need another visit at every visit.
const DEAD: [&str; 8] = ["G X T", "G X F a", "& F a G ! a", "& G F a G ! a", "L", "G & F a X F ! a", "F & a & ! a X T", "& X T W L"];

fn literal(random: &mut Random, atoms: usize) -> String {
    match random.below(12) {
        0 => "T".to_string(),
        1 => "L".to_string(),
        _ if atoms == 0 => if random.chance(50) { "T" } else { "L" }.to_string(),
        2 | 3 => format!("! {}", random.below(atoms)),
        _ => random.below(atoms).to_string(),
    }
}

fn fill(random: &mut Random, shape: &str, atoms: usize) -> String {
    let names = [literal(random, atoms), literal(random, atoms), literal(random, atoms)];
    let items = shape.split(' ').map(|item| match item {
        "a" => &names[0],
        "b" => &names[1],
        "c" => &names[2],
        other => other,
    });
    items.collect::<Vec<&str>>().join(" ")
}

pub fn shaped(random: &mut Random, atoms: usize) -> String {
    let shape = *random.pick(&SHAPES);
    fill(random, shape, atoms)
}

pub fn dead(random: &mut Random, atoms: usize) -> String {
    let shape = *random.pick(&DEAD);
    fill(random, shape, atoms)
}

/// A formula of about `size` items at random.
pub fn any(random: &mut Random, atoms: usize, size: usize) -> String {
    if size <= 1 {
        return literal(random, atoms);
    }
    let operator = *random.pick(&["!", "X", "W", "F", "G", "&", "|", "U", "R", "&", "|", "U", "R"]);
    if "!XWFG".contains(operator) {
        return format!("{operator} {}", any(random, atoms, size - 1));
    }
    let left = 1 + random.below(size - 1);
    format!("{operator} {} {}", any(random, atoms, left), any(random, atoms, size - 1 - left.min(size - 2)))
}

/// A formula of exactly this depth.
pub fn deep(random: &mut Random, atoms: usize, depth: usize) -> String {
    if depth == 1 {
        return literal(random, atoms).trim_start_matches("! ").to_string();
    }
    let below = deep(random, atoms, depth - 1);
    match random.below(7) {
        0 | 1 => format!("! {below}"),
        2 => format!("{} {below}", random.pick(&["X", "W"])),
        3 => format!("{} {below}", random.pick(&["F", "G"])),
        4 => format!("{} {below} T", random.pick(&["&", "|", "U", "R"])),
        _ => format!("{} T {below}", random.pick(&["&", "|", "U", "R"])),
    }
}

/// The same operator and operand over and over: many items, few different formulas.
pub fn balanced(random: &mut Random, atoms: usize, levels: usize) -> String {
    if levels == 0 {
        return if atoms == 0 { "T".to_string() } else { (atoms - 1).to_string() };
    }
    let operator = if levels.is_multiple_of(2) { "&" } else { *random.pick(&["|", "&"]) };
    let below = balanced(random, atoms, levels - 1);
    format!("{operator} {below} {below}")
}

/// An or, until or release over tomorrows.
pub fn knot(random: &mut Random, atoms: usize) -> String {
    let side = |random: &mut Random| {
        let operator = *random.pick(&["X", "W", "X", "F", "X X"]);
        format!("{operator} {}", literal(random, atoms))
    };
    let (left, right) = (side(random), side(random));
    let operator = *random.pick(&["|", "|", "U", "R"]);
    let always = *random.pick(&["", "", "G ", "X "]);
    format!("{always}{operator} {left} {right}")
}
