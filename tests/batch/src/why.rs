//! What the program why prints of a file, made of what the call for the steps of a ring answers for each model; and that the call answers
//! for no model but those of the file's kind. `/` stands for a line feed, as names of clauses have `;`.

use crate::lent::{at_each_room, Answer, Call, MOST};
use crate::probe::{probe_armv8, probe_imm, probe_load, probe_translate, probe_tso, probe_why, OfFile};
use crate::verdicts::{line_of, Lending, ROOM};

/// The bytes of a step: an event, the next one, and the number of a clause.
const STEP: usize = 3;

struct Model {
    number: u64,
    word: &'static str,
    verdict: OfFile,
    /// The names of the clauses by their numbers, of rule 3 and of rule 5.
    names: [&'static [&'static str]; 2],
}

const IMM: Model = Model {
    number: 1,
    word: "source",
    verdict: probe_imm,
    names: [
        &["po", "sw", "rf", "co", "co;rf", "fr", "fr;rf"],
        &[
            "rfe",
            "po;[Wrel]",
            "[Racq];po",
            "po;[F]",
            "[F];po",
            "[Wrel];po-loc;[W]",
            "ppo",
            "detour",
            "psc",
            "[Wstrong];po;[W]",
        ],
    ],
};

const ARMV8: Model = Model {
    number: 2,
    word: "chip",
    verdict: probe_armv8,
    names: [
        &["po-loc", "rf", "fr", "co"],
        &[
            "rfe",
            "fre",
            "coe",
            "(addr|data);rfi?",
            "(ctrl|data);[W];coi?",
            "addr;po;[W]",
            "(ctrl|addr;po);[Fisb];po;[R]",
            "rmw",
            "[codom(rmw)];rfi;[Racq]",
            "po;[Fsy];po",
            "[R];po;[Fld];po",
            "[Racq];po",
            "po;[Wrel];coi?",
            "[Wrel];po;[Racq]",
        ],
    ],
};

const TSO: Model = Model {
    number: 3,
    word: "tso",
    verdict: probe_tso,
    names: [
        &["po-loc", "rf", "fr", "co"],
        &["[R];po;([R]|[W])", "[W];po;[W]", "node;po;full", "full;po;node", "rfe", "co", "fr"],
    ],
};

impl Model {
    fn steps(&self, file: &[u8], lending: Lending) -> Answer {
        lending(Call::OfModel(probe_why, file, self.number), STEP * ROOM)
    }

    /// The line of the verdict on a file and the lines under it, of the steps that were answered.
    fn lines(&self, file: &[u8], lending: Lending, steps: &Answer) -> String {
        let verdict = lending(Call::OfFile(self.verdict, file), ROOM);
        let [verdict_is, steps_are] = [&verdict, steps].map(|answer| (answer.refusal, answer.rule));
        if verdict_is.0 != 0 || verdict_is != steps_are {
            return format!("{} refusal and rule {verdict_is:?}, of the steps {steps_are:?}/", self.word);
        }
        match steps.rule {
            3 => self.ring_lines(3, self.names[0], &steps.bytes),
            5 => self.ring_lines(5, self.names[1], &steps.bytes),
            _ if steps.bytes.is_empty() => line_of(self.word, verdict.rule, &verdict.bytes) + "/",
            rule => format!("{} broken {rule} with steps {:?}/", self.word, steps.bytes),
        }
    }

    /// The line of a ring and those of its steps, if these are one ring.
    fn ring_lines(&self, rule: u64, names: &[&str], bytes: &[u8]) -> String {
        let ring: Vec<u8> = bytes.chunks(STEP).map(|step| step[0]).collect();
        let next = ring.iter().cycle().skip(1);
        let is_ring = !bytes.is_empty() && bytes.len() % STEP == 0 && bytes.chunks(STEP).zip(next).all(|(step, next)| step[1] == *next);
        if !is_ring {
            return format!("{} broken {rule} by {bytes:?}, which is no ring/", self.word);
        }
        let name = |number: u8| names.get((number as usize).wrapping_sub(1)).copied().unwrap_or("unnumbered");
        let step = |step: &[u8]| format!("{} {} {} {}/", self.word, step[0], step[1], name(step[2]));
        line_of(self.word, rule, &ring) + "/" + &bytes.chunks(STEP).map(step).collect::<String>()
    }
}

/// A file that loads is refused with 11 under the models of the other kind; one that does not load has one number under all.
pub fn lines(file: &[u8], lending: Lending) -> String {
    let [imm, armv8, tso] = [IMM, ARMV8, TSO].map(|model| model.steps(file, lending));
    match [imm.refusal, armv8.refusal, tso.refusal] {
        [0, 11, 0] => {
            let chip = lending(Call::OfFile(probe_translate, file), MOST).bytes;
            let armv8 = ARMV8.steps(&chip, lending);
            IMM.lines(file, lending, &imm) + &ARMV8.lines(&chip, lending, &armv8) + &TSO.lines(file, lending, &tso)
        }
        [11, 0, 11] => ARMV8.lines(file, lending, &armv8),
        [cause @ (1..=10 | 13), other, third] if [cause; 2] == [other, third] => format!("refused {cause}/"),
        causes => format!("refused {causes:?}/"),
    }
}

/// Numbers that no model has, some of which end in the bytes of one that a model has.
const NO_MODEL: [u64; 9] = [0, 4, 255, 256, 257, 1 << 32, (1 << 32) + 1, 1 << 63, u64::MAX];

/// What all models but those of the file's kind answer, whatever the room: `refused` and one number. Of a file that does not load those of
/// its kind answer it too.
pub fn other_models(file: &[u8]) -> String {
    // SAFETY: the pointer and the length are those of a slice, and the call only reads it.
    let loads = unsafe { probe_load(file.as_ptr(), file.len()) } == 0;
    let own: &[u64] = match file.first() {
        Some(1) if loads => &[1, 3],
        Some(2) if loads => &[2],
        _ => &[],
    };
    let others = NO_MODEL.into_iter().chain(1..=3).filter(|model| !own.contains(model));
    let answers: Vec<Answer> = others.map(|model| at_each_room(Call::OfModel(probe_why, file, model))).collect();
    let refusals: Vec<u64> = answers.iter().map(|answer| answer.refusal).collect();
    match refusals[0] {
        // A refusal has no rule and no byte (`lent`).
        cause @ 1.. if refusals.iter().all(|&other| other == cause) => format!("refused {cause}"),
        _ => format!("refused {refusals:?}"),
    }
}
