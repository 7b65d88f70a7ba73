//! The texts that netrun and netpage print, and one about the looks at rows.

use crate::load::load;
use crate::net::{Net, Pick, Table};
use crate::page::{page, LONGEST};
use crate::pattern::Pattern;
use crate::quirk::{wrong, Quirk};
use crate::step::{run, Answer};
use crate::value::Value;
use std::io::{self, Write};

/// Loads a file, runs its picks and gives the text about them and the tables left.
pub fn netrun(file: &[u8]) -> Vec<u8> {
    text_of(file, |net, picks, out| {
        print_answers(&run(net, picks), out)?;
        net.tables.iter().try_for_each(|table| print_table(table, out))
    })
}

/// Loads a file, runs its picks and gives the tables left, each as a page.
pub fn netpage(file: &[u8]) -> Vec<u8> {
    text_of(file, |net, picks, out| {
        if !wrong(Quirk::PageBeforePicks) {
            run(net, picks);
        }
        print_pages(net, out)
    })
}

/// Loads a file, runs its picks and gives for each thread left, each template of the file and each
/// table left how many fields of each row are looked at, and whether the row matches.
pub fn looked(file: &[u8]) -> Vec<u8> {
    text_of(file, |net, picks, out| {
        run(net, picks);
        print_looks(net, out)
    })
}

/// The text that `print` gives of a file's net and picks; a refused file has one line.
fn text_of(
    file: &[u8],
    print: impl FnOnce(&mut Net, &[Pick], &mut Vec<u8>) -> io::Result<()>,
) -> Vec<u8> {
    let mut out = Vec::new();
    let printed = match load(file) {
        Ok((mut net, picks)) => print(&mut net, &picks, &mut out),
        Err(fault) => writeln!(out, "load {} at {}", fault.number, fault.place),
    };
    printed.expect("writing to memory");
    out
}

fn print_answers(answers: &[Answer], out: &mut Vec<u8>) -> io::Result<()> {
    for (place, answer) in answers.iter().enumerate() {
        match answer {
            Ok(done) => writeln!(out, "pick {place} done {} {}", done.added, done.taken)?,
            Err(number) => writeln!(out, "pick {place} no {number}")?,
        }
    }
    Ok(())
}

fn print_head(table: &Table, out: &mut Vec<u8>) -> io::Result<()> {
    write!(out, "table {} ", table.site.0)?;
    out.write_all(&table.name.0)?;
    writeln!(out, " {}", table.relation.rows.len())
}

fn print_table(table: &Table, out: &mut Vec<u8>) -> io::Result<()> {
    print_head(table, out)?;
    for row in table.relation.rows.iter() {
        out.write_all(b"row")?;
        row.iter().try_for_each(|value| print_value(*value, out))?;
        out.write_all(b"\n")?;
    }
    Ok(())
}

fn print_value(value: Value, out: &mut Vec<u8>) -> io::Result<()> {
    match value {
        Value::Int(int) => write!(out, " {int}"),
        Value::Text(text) => {
            out.write_all(b" ")?;
            out.write_all(&text.0)
        }
        Value::Loc(locality) => write!(out, " @{}", locality.0),
    }
}

fn print_pages(net: &Net, out: &mut Vec<u8>) -> io::Result<()> {
    let mut lent = [0; LONGEST];
    for table in &net.tables {
        print_head(table, out)?;
        let length = page(net, table.site, table.name, &mut lent);
        out.write_all(&lent[..length.expect("a table of a sound net, and room for any page")])?;
    }
    Ok(())
}

fn print_looks(net: &Net, out: &mut Vec<u8>) -> io::Result<()> {
    for (thread_place, thread) in net.threads.iter().enumerate() {
        for (number, node) in net.nodes.iter().enumerate() {
            let Some(template) = node.act.template() else {
                continue;
            };
            let pattern = Pattern::unjudged(template, &thread.variables);
            for (place, table) in net.tables.iter().enumerate() {
                write!(out, "looked {thread_place} {number} {place}")?;
                print_looks_at(table, &pattern, out)?;
            }
        }
    }
    Ok(())
}

/// The looks at a table's rows, to the end of the line.
fn print_looks_at(table: &Table, pattern: &Pattern, out: &mut Vec<u8>) -> io::Result<()> {
    for row in table.relation.rows.iter() {
        let look = pattern.look(row);
        write!(out, " {}{}", look.fields, if look.matches { '+' } else { '-' })?;
    }
    writeln!(out)
}
