//! The claims on generated recordings: no source recording that loads is broken under IMM while its translation is allowed under ARMv8, and
//! each translation loads (demand 3); none is broken under IMM and allowed under x86-TSO (02, slip 6).

use crate::execution::Execution;
use crate::generate::draft_of_kind;
use crate::hex::to_hex;
use crate::random::Random;
use crate::recording::{load, SOURCE};
use crate::rules::{judge_armv8, judge_imm, judge_tso};
use crate::translation::translate;
use std::collections::BTreeMap;

/// Runs the claims on `count` source recordings; true if they hold on all.
pub fn run(seed: u64, count: usize) -> bool {
    let mut random = Random::new(seed);
    let (mut sources, mut unloaded, mut against) = (0, 0, [0; 2]);
    let mut table: BTreeMap<[String; 3], usize> = BTreeMap::new();
    for _ in 0..count {
        let file = draft_of_kind(&mut random, SOURCE).to_bytes(&mut random);
        let Ok(recording) = load(&file) else {
            continue;
        };
        sources += 1;
        let translation = translate(&file).expect("a source recording that loads is translated");
        let chip = match load(&translation) {
            Ok(chip) => chip,
            Err(cause) => {
                unloaded += 1;
                println!("translation refused {cause}\t{}", to_hex(&file));
                continue;
            }
        };
        let source = Execution::of(&recording);
        let [imm, armv8, tso] = [judge_imm(&source), judge_armv8(&Execution::of(&chip)), judge_tso(&source)].map(|verdict| verdict.rule);
        for (against, (model, rule)) in against.iter_mut().zip([("ARMv8", armv8), ("x86-TSO", tso)]) {
            if imm.is_some() && rule.is_none() {
                *against += 1;
                println!("broken under IMM, allowed under {model}\t{}", to_hex(&file));
            }
        }
        *table.entry([imm, armv8, tso].map(name)).or_default() += 1;
    }
    for ([source, chip, tso], number) in &table {
        println!("source {source}, chip {chip}, tso {tso}: {number}");
    }
    let [by_armv8, by_tso] = against;
    println!(
        "{count} generated, {sources} load, {unloaded} translations refused, \
         {by_armv8} broken under IMM but allowed under ARMv8, {by_tso} broken under IMM but allowed under x86-TSO"
    );
    unloaded == 0 && against == [0, 0]
}

fn name(rule: Option<u8>) -> String {
    rule.map_or("allowed".into(), |k| format!("broken {k}"))
}
