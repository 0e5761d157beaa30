//! The plain register of the figures does what the model does: the comparison's own cases.
use compare::cases::{sorts, Wanted};
use compare::desk::{Desk, InProcess};
use compare::run::compare;
use model::{Exported, Imported};

struct Plain;

impl Desk for Plain {
    fn export(&mut self, sheet: &[u8], out: &mut [u8]) -> Exported {
        figures::register::export(sheet, out)
    }

    fn import(&mut self, text: &[u8], out: &mut [u8]) -> Imported {
        figures::register::import(text, out)
    }
}

#[test]
fn the_plain_register_agrees_with_the_model() {
    let wanted = Wanted {
        events: 0,
        rows: 0,
        sheets: 0,
        questions: 0,
        texts: 40_000,
        blocks: 0,
    };
    let run = compare(&sorts(), 5, wanted, &mut InProcess(Plain));
    let tally = run.unwrap_or_else(|d| panic!("{}: {}", d.name, d.text));
    assert!(tally.answers[28] > 10_000 && tally.answers[0] > 10_000);
}
