//! The text expected of a program, which need not be netrun's.

use crate::cases::Case;
use crate::summed::summed;

/// The programs that are held to the second engine, by what they print.
#[derive(Clone, Copy, PartialEq, Eq, Debug)]
pub enum Printer {
    Netrun,
    /// All picks as one run: the sums of the counts, and the tables left.
    Netsums,
    /// The tables left, each as a page.
    Netpage,
    /// The fields looked at, by the threads, templates and tables left.
    Looked,
}

/// A case of netrun with the text of this program.
pub fn expected(case: Case, of: Printer) -> Case {
    match of {
        Printer::Netrun => case,
        Printer::Netsums => Case { text: summed(&case.text), ..case },
        Printer::Netpage => Case { text: engine::netpage(&case.file), ..case },
        Printer::Looked => Case { text: engine::looked(&case.file), ..case },
    }
}

#[cfg(test)]
mod tests {
    use super::{expected, Printer};
    use crate::cases::Case;
    use generate::record::*;

    #[test]
    fn each_program_has_its_own_text_for_a_file() {
        let template = node(DELETE, END).name(b"CARD").at(loc(0)).template(&[formal(0), int(7)]);
        let still = [table(0, b"CARD", &[INT]), row(0, b"CARD", &[int(-7)])];
        let file = file(&[&still[..], &[template, start(0, 0)]].concat());
        let run = "table 0 CARD 1\nrow -7\n";
        let cell = "           -7                                       \n";
        let pages = format!("table 0 CARD 1\n{cell}{cell}");
        let case = Case { label: "seven".into(), arguments: Vec::new(), file, text: run.into() };
        for (of, wanted) in [
            (Printer::Netrun, run),
            (Printer::Netsums, "run 0 0\ntable 0 CARD 1\nrow -7\n"),
            (Printer::Netpage, &pages),
            (Printer::Looked, "looked 0 0 0 1-\n"),
        ] {
            let text = expected(case.clone(), of).text;
            assert_eq!(String::from_utf8_lossy(&text), wanted, "{of:?}");
        }
    }
}
