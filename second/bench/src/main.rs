//! Measures what users call: the second engine and, with the feature `proved`, the proved code on
//! the same nets and the same picks, in one run of one program. Nothing is printed unless both
//! gave the same in everything that was measured.

mod by_kind;
mod calls;
mod chain;
mod clock;
mod done;
mod left_early;
mod loads;
mod nets;
mod programs;
mod proved;
mod runs;
mod second;
mod show;
mod sqlite;
mod sums;
#[cfg(test)]
mod tests;
mod usage;
mod work;

fn main() {
    eprintln!("Measuring; this takes a minute or two.");
    let update = sqlite::update_time();
    let mut sections = vec![
        by_kind::section(),
        left_early::section(),
        runs::section(),
        calls::section(update),
        programs::section(),
        loads::section(),
        sqlite::section(update),
    ];
    if !proved::LINKED {
        sections.push("Without the proved code; second/README.md says how to link it.".into());
    }
    println!("{}", sections.join("\n\n"));
}
