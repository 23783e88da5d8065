//! Recordings whose rings are known by hand with the clauses of each step: for every clause of every list some of which it is the clause of
//! a step, and steps that several clauses lead to. They are boundary files that load.

use crate::handmade::Cases;
use crate::notation::written;
use crate::sketch::Sketch;

/// A file with what is known of a ring of one of its verdicts.
pub struct Explained {
    pub name: String,
    pub file: Vec<u8>,
    pub model: &'static str,
    pub rule: u8,
    pub ring: Vec<u8>,
    /// For each step of the ring all clauses that lead there, in their order: the first is the step's.
    pub steps: Vec<Vec<String>>,
    /// No other ring is as short.
    pub only: bool,
}

pub fn explained() -> Vec<Explained> {
    let mut all: Vec<Explained> = ONLY_RING.iter().flat_map(|&row| [of_row(row, true), backward(row, true)]).collect();
    all.extend(ONE_OF_SEVERAL.iter().flat_map(|&row| [of_row(row, false), backward(row, false)]));
    all.extend(subsets(READ_TO_WRITE).into_iter().map(|causes| read_to_write(&causes)));
    all.extend(subsets(READ_TO_READ).into_iter().map(|causes| read_to_read(&causes)));
    all
}

pub fn add(cases: &mut Cases) {
    for explained in explained() {
        cases.add(explained.name, explained.file, 0);
    }
}

/// Model and rule, the threads and the links of the recording (`notation`), a ring, and its steps: `+` joins the clauses of a step.
type Row<'a> = (&'static str, u8, &'a str, &'a str, &'a [u8], &'a str);

fn sketch_of((model, _, threads, links, ..): Row) -> Sketch {
    written(if model == "chip" { 2 } else { 1 }, threads, links)
}

fn of_row(row: Row, only: bool) -> Explained {
    let (model, rule, threads, links, ring, steps) = row;
    let behind = if links.is_empty() { String::new() } else { format!(", {links}") };
    Explained {
        name: format!("why, {model} {rule}: {threads}{behind}"),
        file: sketch_of(row).file(),
        model,
        rule,
        ring: ring.to_vec(),
        steps: steps.split(' ').map(|step| step.split('+').map(String::from).collect()).collect(),
        only,
    }
}

/// The same with the numbers of the events the other way round, so that the ring begins with the event that had the largest.
fn backward(row: Row, only: bool) -> Explained {
    let mut turned = of_row(row, only);
    let sketch = sketch_of(row);
    let over = sketch.events.len() as u8 + 1;
    turned.name += ", backward";
    turned.file = sketch.backward().file();
    turned.ring.iter_mut().for_each(|e| *e = over - *e);
    let first = (0..turned.ring.len()).min_by_key(|&place| turned.ring[place]).expect("a ring has an event");
    turned.ring.rotate_left(first);
    turned.steps.rotate_left(first);
    turned
}

const ONLY_RING: &[Row] = &[
    // IMM's rule 3: po, and what closes it.
    ("source", 3, "W x 1; R x 0", "", &[1, 2], "po fr"),
    ("source", 3, "R x 1; W x 1", "", &[1, 2], "po rf"),
    ("source", 3, "W x 2; W x 1", "", &[1, 2], "po co"),
    ("source", 3, "R x 2; W x 1 || W x 2", "", &[1, 2], "po co;rf"),
    ("source", 3, "R x 1; R x 0 || W x 1", "", &[1, 2], "po fr;rf"),
    // sw: by itself, from a write to a read, along a release sequence, and between fences.
    ("source", 3, "R x 1; Facqrel; W x 1", "", &[2], "sw"),
    ("source", 3, "R x 1; Fsc; W x 1", "", &[2], "sw"),
    ("source", 3, "Racq x 1; Wrel y 1 || Racq y 1; Wrel x 1", "", &[1, 2, 3, 4], "po sw+rf po sw+rf"),
    ("source", 3, "W x 1; Wrel y 1 || Racq y 1; R x 0", "", &[1, 2, 3, 4], "po sw+rf po fr"),
    ("source", 3, "W x 1; Wrel y 1; W y 2 || Racq y 2; R x 0", "", &[1, 2, 4, 5], "po sw+co;rf po fr"),
    ("source", 3, "W x 1; Wrel y 1 || Rex y 1; W y 2 || Racq y 2; R x 0", "rmw 3 4", &[1, 2, 5, 6], "po sw+co;rf po fr"),
    ("source", 3, "W x 1; Frel; W y 1 || R y 1; Facq; R x 0", "", &[1, 2, 5, 6], "po sw po fr"),
    ("source", 3, "W x 2; Frel; W y 1 || R y 1; Facq; W x 1", "", &[1, 2, 5, 6], "po sw po co"),
    ("source", 3, "R x 1; Frel; W y 1 || R y 1; Facq; W x 1", "", &[1, 2, 5, 6], "po sw po rf"),
    ("source", 3, "R x 2; Frel; W y 1 || R y 1; Facq; W x 1 || W x 2", "", &[1, 2, 5, 6], "po sw po co;rf"),
    ("source", 3, "R x 1; Frel; W y 1 || R y 1; Facq; R x 0 || W x 1", "", &[1, 2, 5, 6], "po sw po fr;rf"),
    (
        "source",
        3,
        "W x 1; Wrel y 1 || Racq y 1; Wrel y 2 || Racq y 2; R x 0",
        "",
        &[1, 2, 3, 4, 5, 6],
        "po sw+rf po+fr sw+rf po fr",
    ),
    // IMM's rule 5: rfe and the parts of bob.
    ("source", 5, "R x 1; Wrel y 1 || R y 1; Wrel x 1", "", &[1, 2, 3, 4], "po;[Wrel] rfe po;[Wrel] rfe"),
    ("source", 5, "Racq x 1; W y 1 || Racq y 1; W x 1", "", &[1, 2, 3, 4], "[Racq];po rfe [Racq];po rfe"),
    ("source", 5, "R x 1; Facq; W y 1 || R y 1; W x 1", "data 4 5", &[1, 2, 3, 4, 5], "po;[F] [F];po rfe ppo rfe"),
    ("source", 5, "R x 1; Frel; W y 1 || R y 1; W x 1", "data 4 5", &[1, 2, 3, 4, 5], "po;[F] [F];po rfe ppo rfe"),
    ("source", 5, "R x 1; Facqrel; W y 1 || R y 1; W x 1", "data 4 5", &[1, 2, 3, 4, 5], "po;[F] [F];po rfe ppo rfe"),
    ("source", 5, "R x 1; Fsc; W y 1 || R y 1; W x 1", "data 4 5", &[1, 2, 3, 4, 5], "po;[F] [F];po rfe ppo rfe"),
    (
        "source",
        5,
        "R y 1; Wrel x 1; W x 2 || R x 2; W y 1",
        "data 4 5",
        &[1, 2, 3, 4, 5],
        "po;[Wrel] [Wrel];po-loc;[W] rfe ppo rfe",
    ),
    // ppo by each dependency, and by several steps.
    ("source", 5, "R x 1; W y 1 || R y 1; W x 1", "data 1 2, addr 3 4", &[1, 2, 3, 4], "ppo rfe ppo rfe"),
    ("source", 5, "R x 1; R z 0; W y 1 || R y 1; W x 1", "ctrl 1 2, ctrl 4 5", &[1, 3, 4, 5], "ppo rfe ppo rfe"),
    ("source", 5, "R x 1; R z 0; W y 1 || Rex y 1; W x 1", "addr 1 2", &[1, 3, 4, 5], "ppo rfe ppo rfe"),
    ("source", 5, "R x 1; Rex z 0; W y 1 || R y 1; W x 1", "casdep 1 2, data 4 5", &[1, 3, 4, 5], "ppo rfe ppo rfe"),
    (
        "source",
        5,
        "R x 1; W z 1; R z 1; W y 1 || R y 1; W x 1",
        "data 1 2, data 3 4, data 5 6",
        &[1, 4, 5, 6],
        "ppo rfe ppo rfe",
    ),
    // detour: to a read of an external write that is co-after the own one, directly or not.
    (
        "source",
        5,
        "R y 1; W x 1; R x 2; W z 1 || W x 2 || R z 1; W y 1",
        "data 1 2, data 3 4, data 6 7",
        &[1, 2, 3, 4, 6, 7],
        "ppo detour ppo rfe ppo rfe",
    ),
    (
        "source",
        5,
        "W x 3 || R y 1; Wrel x 1; Racq x 3; W z 1 || R z 1; W y 1 || W x 2",
        "data 6 7",
        &[2, 3, 4, 5, 6, 7],
        "po;[Wrel] detour [Racq];po rfe ppo rfe",
    ),
    // psc: by po alone, by sw, and in a ring with other steps.
    ("source", 5, "W x 1; Fsc; R y 0 || W y 1; Fsc; R x 0", "", &[2, 5], "psc psc"),
    ("source", 5, "W x 1; Fsc; Wrel z 1 || Racq z 1; R y 0 || W y 1; Fsc; R x 0", "", &[2, 7], "psc psc"),
    (
        "source",
        5,
        "R u 1; Fsc; R y 0 || W y 1; Fsc; W z 1 || R z 1; W u 1",
        "data 7 8",
        &[1, 2, 5, 6, 7, 8],
        "po;[F] psc [F];po rfe ppo rfe",
    ),
    // Behind a strong write, to which ppo or po;[Wrel] leads.
    (
        "source",
        5,
        "R z 1; Rex x 0; Wstrong x 1; W y 1 || R y 1; W z 1",
        "rmw 2 3, data 1 3, data 5 6",
        &[1, 3, 4, 5, 6],
        "ppo [Wstrong];po;[W] rfe ppo rfe",
    ),
    (
        "source",
        5,
        "R x 1; W y 1 || R y 1; Rex z 0; Wrelstrong z 1; W x 1",
        "data 1 2, rmw 4 5",
        &[1, 2, 3, 5, 6],
        "ppo rfe po;[Wrel] [Wstrong];po;[W] rfe",
    ),
    // Steps of IMM's rule 5 that several clauses lead to.
    ("source", 5, "Racq x 1; Wrel y 1 || R y 1; W x 1", "data 3 4", &[1, 2, 3, 4], "po;[Wrel]+[Racq];po rfe ppo rfe"),
    ("source", 5, "R x 1; Wrel y 1 || R y 1; W x 1", "data 1 2, data 3 4", &[1, 2, 3, 4], "po;[Wrel]+ppo rfe ppo rfe"),
    ("source", 5, "Racq x 1; W y 1 || R y 1; W x 1", "data 1 2, data 3 4", &[1, 2, 3, 4], "[Racq];po+ppo rfe ppo rfe"),
    (
        "source",
        5,
        "Racq x 1; Wrel y 1 || R y 1; W x 1",
        "data 1 2, data 3 4",
        &[1, 2, 3, 4],
        "po;[Wrel]+[Racq];po+ppo rfe ppo rfe",
    ),
    (
        "source",
        5,
        "Racq u 1; Fsc; R y 0 || W y 1; Fsc; Wrel z 1 || R z 1; W u 1",
        "data 7 8",
        &[1, 2, 5, 6, 7, 8],
        "[Racq];po+po;[F] psc po;[Wrel]+[F];po rfe ppo rfe",
    ),
    (
        "source",
        5,
        "R y 1; Rex x 0; Wrelstrong x 1; W x 2 || R x 2; W y 1",
        "rmw 2 3, data 5 6",
        &[1, 3, 4, 5, 6],
        "po;[Wrel] [Wrel];po-loc;[W]+[Wstrong];po;[W] rfe ppo rfe",
    ),
    // Rule 3 of ARMv8 and of x86-TSO.
    ("chip", 3, "W x 1; R x 0", "", &[1, 2], "po-loc fr"),
    ("chip", 3, "R x 1; W x 1", "", &[1, 2], "po-loc rf"),
    ("chip", 3, "W x 2; W x 1", "", &[1, 2], "po-loc co"),
    ("chip", 3, "R x 2; W x 1 || W x 2", "", &[1, 2, 3], "po-loc co rf"),
    ("chip", 3, "R x 1; R x 0 || W x 1", "", &[1, 2, 3], "po-loc fr rf"),
    ("tso", 3, "W x 1; Fsc; R x 0", "", &[1, 3], "po-loc fr"),
    ("tso", 3, "R x 1; Fsc; R y 0; W x 1", "", &[1, 4], "po-loc rf"),
    ("tso", 3, "W x 2; Fsc; W x 1", "", &[1, 3], "po-loc co"),
    ("tso", 3, "R x 2; Facq; W x 1 || W x 2", "", &[1, 3, 4], "po-loc co rf"),
    ("tso", 3, "R x 1; Facq; R x 0 || W x 1", "", &[1, 3, 4], "po-loc fr rf"),
    // ARMv8's rule 5: obs and dob.
    ("chip", 5, "R x 1; W y 1 || R y 1; W x 1", "addr 1 2, addr 3 4", &[1, 2, 3, 4], "(addr|data);rfi? rfe (addr|data);rfi? rfe"),
    (
        "chip",
        5,
        "W x 1; Fsy; W y 1 || R y 1; W z 1; R z 1; R x 0",
        "data 4 5, addr 6 7",
        &[1, 3, 4, 6, 7],
        "po;[Fsy];po rfe (addr|data);rfi? (addr|data);rfi? fre",
    ),
    (
        "chip",
        5,
        "W x 1; Fsy; W y 1 || R y 1; W z 1; R z 1; R x 0",
        "addr 4 5, addr 6 7",
        &[1, 3, 4, 6, 7],
        "po;[Fsy];po rfe (addr|data);rfi? (addr|data);rfi? fre",
    ),
    (
        "chip",
        5,
        "R x 1; W y 1 || R y 1; W x 1",
        "data 1 2, ctrl 3 4",
        &[1, 2, 3, 4],
        "(addr|data);rfi?+(ctrl|data);[W];coi? rfe (ctrl|data);[W];coi? rfe",
    ),
    (
        "chip",
        5,
        "R x 1; W y 1; W y 2 || R y 2; R z 0; W x 1",
        "data 1 2, ctrl 4 5",
        &[1, 3, 4, 6],
        "(ctrl|data);[W];coi? rfe (ctrl|data);[W];coi? rfe",
    ),
    (
        "chip",
        5,
        "R x 1; R z 0; W y 1 || R y 1; W x 1",
        "addr 1 2, addr 4 5",
        &[1, 3, 4, 5],
        "addr;po;[W] rfe (addr|data);rfi? rfe",
    ),
    (
        "chip",
        5,
        "W x 1; Fsy; W y 1 || R y 1; R z 0; Fisb; R x 0",
        "addr 4 5",
        &[1, 3, 4, 7],
        "po;[Fsy];po rfe (ctrl|addr;po);[Fisb];po;[R] fre",
    ),
    // aob. A shortest ring comes to the read of a pair by [Wrel];po;[Racq] alone, so that [Racq];po is beside rmw: what else leads there
    // leads to its write too, or, by [codom(rmw)];rfi;[Racq], comes from a write whose own predecessor leads there.
    (
        "chip",
        5,
        "Wrel y 1; Racqex x 0; W x 1 || R x 1; R y 0",
        "rmw 2 3, addr 4 5",
        &[1, 2, 3, 4, 5],
        "[Wrel];po;[Racq] rmw+[Racq];po rfe (addr|data);rfi? fre",
    ),
    (
        "chip",
        5,
        "W x 1; Fsy; R y 0 || Wrel y 1; Racqex z 0; W z 1 || R z 1; R x 0",
        "rmw 5 6, addr 7 8",
        &[1, 3, 4, 5, 6, 7, 8],
        "po;[Fsy];po fre [Wrel];po;[Racq] rmw+[Racq];po rfe (addr|data);rfi? fre",
    ),
    (
        "chip",
        5,
        "Rex x 0; W x 1; Racq x 1; R y 0 || W y 1; Fsy; R x 0",
        "rmw 1 2",
        &[2, 3, 4, 5, 7],
        "[codom(rmw)];rfi;[Racq] [Racq];po fre po;[Fsy];po fre",
    ),
    (
        "chip",
        5,
        "Rex x 0; Wrel x 1; Racq x 1; R y 0 || W y 1; Fsy; R x 0",
        "rmw 1 2",
        &[2, 3, 4, 5, 7],
        "[codom(rmw)];rfi;[Racq]+[Wrel];po;[Racq] [Racq];po fre po;[Fsy];po fre",
    ),
    // bob.
    ("chip", 5, "W x 1; Fsy; R y 0 || W y 1; Fsy; R x 0", "", &[1, 3, 4, 6], "po;[Fsy];po fre po;[Fsy];po fre"),
    ("chip", 5, "W x 2; Fsy; W y 1 || W y 2; Fsy; W x 1", "", &[1, 3, 4, 6], "po;[Fsy];po coe po;[Fsy];po coe"),
    ("chip", 5, "R x 1; Wrel y 1; W y 2 || R y 2; Fld; W x 1", "", &[1, 3, 4, 6], "po;[Wrel];coi? rfe [R];po;[Fld];po rfe"),
    ("chip", 5, "Wrel x 1; Racq y 0 || Wrel y 1; Racq x 0", "", &[1, 2, 3, 4], "[Wrel];po;[Racq] fre [Wrel];po;[Racq] fre"),
    (
        "chip",
        5,
        "Wrel x 1; Fsy; Racq y 0 || Wrel y 1; Fsy; Racq x 0",
        "",
        &[1, 3, 4, 6],
        "po;[Fsy];po+[Wrel];po;[Racq] fre po;[Fsy];po+[Wrel];po;[Racq] fre",
    ),
    // x86-TSO's rule 5.
    ("tso", 5, "W x 1; W y 1 || R y 1; R x 0", "", &[1, 2, 3, 4], "[W];po;[W] rfe [R];po;([R]|[W]) fr"),
    ("tso", 5, "R x 1; W y 1 || R y 1; W x 1", "", &[1, 2, 3, 4], "[R];po;([R]|[W]) rfe [R];po;([R]|[W]) rfe"),
    ("tso", 5, "W x 2; W y 1 || W y 2; W x 1", "", &[1, 2, 3, 4], "[W];po;[W] co [W];po;[W] co"),
    (
        "tso",
        5,
        "W x 1; Fsc; R y 0 || W y 1; Fsc; R x 0",
        "",
        &[1, 2, 3, 4, 5, 6],
        "node;po;full full;po;node fr node;po;full full;po;node fr",
    ),
    (
        "tso",
        5,
        "Rex x 0; W x 1; R y 0 || Rex y 0; W y 1; R x 0",
        "rmw 1 2, rmw 4 5",
        &[2, 3, 5, 6],
        "full;po;node fr full;po;node fr",
    ),
    (
        "tso",
        5,
        "R x 1; Rex y 0; W y 1 || R y 1; W x 1",
        "rmw 2 3",
        &[1, 3, 4, 5],
        "[R];po;([R]|[W])+node;po;full rfe [R];po;([R]|[W]) rfe",
    ),
    (
        "tso",
        5,
        "W x 2; Rex y 0; W y 1 || R y 1; W x 1",
        "rmw 2 3",
        &[1, 3, 4, 5],
        "[W];po;[W]+node;po;full rfe [R];po;([R]|[W]) co",
    ),
    (
        "tso",
        5,
        "Rex x 0; W x 1; W y 1 || R y 1; R x 0",
        "rmw 1 2",
        &[2, 3, 4, 5],
        "[W];po;[W]+full;po;node rfe [R];po;([R]|[W]) fr",
    ),
    (
        "tso",
        5,
        "Rex x 0; W x 1; Rex y 0; W y 1 || R y 1; R x 0",
        "rmw 1 2, rmw 3 4",
        &[2, 4, 5, 6],
        "[W];po;[W]+node;po;full+full;po;node rfe [R];po;([R]|[W]) fr",
    ),
];

/// Beside a ring by a release write there may be one by a read of it, beside one by the read of a pair one by its write.
const ONE_OF_SEVERAL: &[Row] = &[
    ("source", 3, "Wrel x 1; R x 1; Facqrel; W y 1 || Racq y 1; R x 0", "", &[1, 3, 5, 6], "po+sw sw po fr"),
    (
        "tso",
        5,
        "Rex x 0; W x 1; Rex y 0; W y 1 || W y 2; Fsc; R x 0",
        "rmw 1 2, rmw 3 4",
        &[2, 3, 5, 6, 7],
        "node;po;full+full;po;node fr node;po;full full;po;node fr",
    ),
    (
        "tso",
        5,
        "Rex x 1; W x 2; W y 1 || R y 1; W x 1",
        "rmw 1 2",
        &[1, 3, 4, 5],
        "[R];po;([R]|[W])+full;po;node rfe [R];po;([R]|[W]) rfe",
    ),
];

/// Clauses of ARMv8's rule 5 that can lead from a read to a write, all at once or any of them.
const READ_TO_WRITE: &[&str] = &[
    "(addr|data);rfi?",
    "(ctrl|data);[W];coi?",
    "addr;po;[W]",
    "po;[Fsy];po",
    "[R];po;[Fld];po",
    "[Racq];po",
    "po;[Wrel];coi?",
];

/// The same from a read to a read.
const READ_TO_READ: &[&str] =
    &["(addr|data);rfi?", "(ctrl|addr;po);[Fisb];po;[R]", "po;[Fsy];po", "[R];po;[Fld];po", "[Racq];po"];

/// All selections of one or more, each in its order.
fn subsets(names: &'static [&'static str]) -> Vec<Vec<&'static str>> {
    let chosen = |set: usize| (0..names.len()).filter(|place| set >> place & 1 == 1).map(|place| names[place]).collect();
    (1..1 << names.len()).map(chosen).collect()
}

/// Load buffering: R x 1, .., W y 1 with what these clauses need || R y 1, W x 1.
fn read_to_write(causes: &[&str]) -> Explained {
    let of = |cause: &str| causes.contains(&cause);
    let mut events = vec![if of("[Racq];po") { "Racq x 1" } else { "R x 1" }];
    let between = [("addr;po;[W]", "R z 0"), ("po;[Fsy];po", "Fsy"), ("[R];po;[Fld];po", "Fld")];
    events.extend(between.into_iter().filter(|&(cause, _)| of(cause)).map(|(_, event)| event));
    events.push(if of("po;[Wrel];coi?") { "Wrel y 1" } else { "W y 1" });
    let last = events.len() as u8;
    let mut links = vec![format!("addr {} {}", last + 1, last + 2)];
    let linked = [("(addr|data);rfi?", "addr", last), ("(ctrl|data);[W];coi?", "ctrl", last), ("addr;po;[W]", "addr", 2)];
    links.extend(linked.into_iter().filter(|&(cause, ..)| of(cause)).map(|(_, link_type, to)| format!("{link_type} 1 {to}")));
    let threads = format!("{} || R y 1; W x 1", events.join("; "));
    let steps = format!("{} rfe (addr|data);rfi? rfe", causes.join("+"));
    of_row(("chip", 5, &threads, &links.join(", "), &[1, last, last + 1, last + 2], &steps), true)
}

/// Message passing: W x 1, dmb sy, W y 1 || R y 1, .., R x 0 with what these clauses need.
fn read_to_read(causes: &[&str]) -> Explained {
    let of = |cause: &str| causes.contains(&cause);
    let mut events = vec![if of("[Racq];po") { "Racq y 1" } else { "R y 1" }];
    let between = [("(ctrl|addr;po);[Fisb];po;[R]", "Fisb"), ("po;[Fsy];po", "Fsy"), ("[R];po;[Fld];po", "Fld")];
    events.extend(between.into_iter().filter(|&(cause, _)| of(cause)).map(|(_, event)| event));
    events.push("R x 0");
    let last = 3 + events.len() as u8;
    let linked = [("(addr|data);rfi?", format!("addr 4 {last}")), ("(ctrl|addr;po);[Fisb];po;[R]", "ctrl 4 5".into())];
    let links: Vec<String> = linked.into_iter().filter(|(cause, _)| of(cause)).map(|(_, link)| link).collect();
    let threads = format!("W x 1; Fsy; W y 1 || {}", events.join("; "));
    let steps = format!("po;[Fsy];po rfe {} fre", causes.join("+"));
    of_row(("chip", 5, &threads, &links.join(", "), &[1, 3, 4, last], &steps), true)
}
