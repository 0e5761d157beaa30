//! Libraries that are the model with one fault about the export of a register put in (02,
//! item 3): each must be found by a small run.

mod common;

use common::{compare_only, must_differ_on};
use compare::desk::Desk;
use compare::texts::CRLF;
use model::Exported;

/// The sort of cases that exports.
const EXPORTING: [&str; 1] = ["exporting"];

/// A desk that exports by this.
struct Exports(fn(&[u8], &mut [u8]) -> Exported);

impl Desk for Exports {
    fn export(&mut self, sheet: &[u8], out: &mut [u8]) -> Exported {
        (self.0)(sheet, out)
    }
}

type ExportFault = (&'static str, fn(&[u8], &mut [u8]) -> Exported);

/// The model's text, changed so, where there is room for it.
fn rewritten(sheet: &[u8], out: &mut [u8], change: impl Fn(&str) -> String) -> Exported {
    let mut tried = vec![0; 4 * sheet.len()];
    let told = model::export(sheet, &mut tried);
    if told.number != 0 {
        return model::export(sheet, out);
    }
    let text = change(&String::from_utf8_lossy(&tried[..told.bytes])).into_bytes();
    if out.len() < text.len() {
        return Exported {
            number: 21,
            ..Exported::default()
        };
    }
    out[..text.len()].copy_from_slice(&text);
    Exported {
        bytes: text.len(),
        ..told
    }
}

const EXPORTS: &[ExportFault] = &[
    ("LF for CR LF", |sheet, out| {
        rewritten(sheet, out, |text| text.replace(CRLF, "\n"))
    }),
    ("no last line end", |sheet, out| {
        rewritten(sheet, out, |text| text.trim_end().to_string())
    }),
    ("a blank line at the end", |sheet, out| {
        rewritten(sheet, out, |text| text.to_string() + CRLF)
    }),
    ("no header", |sheet, out| {
        rewritten(sheet, out, |text| text[34..].to_string())
    }),
    ("the header quoted", |sheet, out| {
        rewritten(sheet, out, |text| text.replace("position", "\"position\""))
    }),
    ("empty fields quoted", |sheet, out| {
        rewritten(sheet, out, |text| text.replace(",,", ",\"\","))
    }),
    ("the start stamp in another field", |sheet, out| {
        rewritten(sheet, out, |text| text.replacen("\r\n,,,", "\r\n,,", 1))
    }),
    ("an event not answered has no answer", |sheet, out| {
        rewritten(sheet, out, |text| text.replace(",31\r\n", ",\r\n"))
    }),
    ("numbers of two digits", |sheet, out| {
        rewritten(sheet, out, |text| text.replace(",0,", ",00,"))
    }),
    ("a large stamp below zero", |sheet, out| {
        rewritten(sheet, out, |text| text.replace("4294967295", "-1"))
    }),
    ("21 before those of reading", |sheet, out| {
        let told = model::export(sheet, out);
        match told.number != 0 && out.is_empty() {
            true => Exported {
                number: 21,
                ..Exported::default()
            },
            false => told,
        }
    }),
    ("21 with a block", |sheet, out| {
        match model::export(sheet, out) {
            told if told.number == 21 => Exported { block: 1, ..told },
            told => told,
        }
    }),
    ("the block not named", |sheet, out| Exported {
        block: 0,
        ..model::export(sheet, out)
    }),
    ("bytes of a refusal", |sheet, out| {
        match model::export(sheet, out) {
            told if told.number != 0 => Exported { bytes: 34, ..told },
            told => told,
        }
    }),
    ("an output that just fits refused", |sheet, out| {
        let mut tried = out.to_vec();
        let told = model::export(sheet, &mut tried);
        if told.number == 0 && told.bytes == out.len() {
            return Exported {
                number: 21,
                ..Exported::default()
            };
        }
        model::export(sheet, out)
    }),
    ("as much as there is room for", |sheet, out| {
        let mut tried = vec![0; 4 * sheet.len()];
        let told = model::export(sheet, &mut tried);
        let bytes = told.bytes.min(out.len());
        out[..bytes].copy_from_slice(&tried[..bytes]);
        match bytes < told.bytes {
            true => model::export(sheet, &mut []),
            false => told,
        }
    }),
    ("past the text cleared", |sheet, out| {
        let told = model::export(sheet, out);
        if told.number == 0 {
            out[told.bytes..].fill(0);
        }
        told
    }),
    ("a worked sheet refused", |sheet, out| {
        let worked = model::work(sheet, &mut vec![0; sheet.len()]);
        match worked.number {
            0 => model::export(sheet, out),
            number => Exported {
                number,
                block: worked.block,
                ..Exported::default()
            },
        }
    }),
];

#[test]
fn wrong_exports_are_found() {
    for (name, fault) in EXPORTS {
        must_differ_on(&EXPORTING, name, Exports(*fault));
    }
}

/// So that what finds the faults above is the fault, and not the way it is put in.
#[test]
fn what_is_rewritten_as_it_was_is_not_found() {
    let same = Exports(|sheet, out| rewritten(sheet, out, str::to_string));
    assert!(compare_only(&EXPORTING, same).is_ok());
}
