//! What the tour and the README show is what the program does, and the nets in the tour are those
//! of the examples.

use crate::double::{by_stand_in, told, traced};
use crate::page::{blocks, calls, commands, read, root};
use nettrace::{parse_picks, Source};
use std::fs;

const TOUR: &str = "docs/TOUR.md";

#[test]
fn the_second_engine_gives_what_the_tour_shows() {
    for command in commands(&read(TOUR)) {
        let told = by_stand_in(&command.arguments);
        assert!(told == command.output, "{:?}\n{told}", command.arguments);
    }
}

#[cfg(feature = "proved")]
#[test]
fn the_program_gives_what_the_tour_shows() {
    for command in commands(&read(TOUR)) {
        let output = std::process::Command::new(env!("CARGO_BIN_EXE_nettrace"))
            .args(&command.arguments)
            .current_dir(root())
            .output()
            .expect("the program starts");
        let told = String::from_utf8_lossy(&output.stdout);
        assert!(told == command.output, "{:?}\n{told}", command.arguments);
        assert!(output.status.success() && output.stderr.is_empty());
    }
}

/// The first lesson is that an update judges rows as they stood before: its trace shows the tests.
#[test]
fn the_first_lesson_shows_what_rows_were_judged_against() {
    let page = read(TOUR);
    let (_, rest) = page.split_once("## 1. ").expect("the first lesson");
    let (lesson, _) = rest.split_once("## 2. ").expect("its end");
    let traces: String = commands(lesson).iter().map(|command| command.output).collect();
    let tests = ["36 < 40", "39 < 40", "not 120 < 40", "not 210 < 40", "200 < 210", "not 200 < 38"];
    for test in tests {
        assert!(traces.contains(&format!("    {test}\n")), "{test}");
    }
    assert!(!traces.contains("38 < 40\n"), "a row that the update itself wrote");
}

/// Every net of the tour stands in it, as it is in its file, and is traced there.
#[test]
fn the_tour_has_all_its_nets() {
    let page = read(TOUR);
    let shown = blocks(&page, "nettext");
    let entries = fs::read_dir(root().join("examples/tour")).expect("the nets of the tour");
    let names = entries.map(|entry| entry.expect("a file").file_name().into_string());
    let nets: Vec<String> = names
        .map(|name| format!("examples/tour/{}", name.expect("a name that reads")))
        .filter(|name| name.ends_with(".nettext"))
        .collect();
    assert_eq!(nets.len(), shown.len());
    for net in nets {
        assert!(shown.contains(&read(&net).as_str()), "{net} is not as the tour shows it");
        let traced = commands(&page).iter().any(|command| command.arguments[0] == net);
        assert!(traced, "{net} is not traced in the tour");
    }
}

/// Every other command of the tour has netpage print a stored net, and shows what it prints.
#[test]
fn the_tour_shows_what_netpage_prints() {
    let page = read(TOUR);
    let pages = calls(&page, "target/bin/netpage < ");
    assert!(!pages.is_empty());
    assert_eq!(pages.len() + commands(&page).len(), blocks(&page, "console").len());
    for (net, output) in pages {
        let file = fs::read(root().join(net)).expect("a stored net");
        assert_eq!(String::from_utf8_lossy(&engine::netpage(&file)), output);
    }
}

/// A newcomer who writes the README's net gets what the README shows.
#[test]
fn the_readme_shows_what_its_net_comes_to() {
    let readme = read("README.md");
    let (_, rest) = readme.split_once("<<'END'\n").expect("the command that writes the net");
    let (net, _) = rest.split_once("END\n").expect("its end");
    assert_eq!(blocks(&readme, "trace"), [traced(net).expect("a net that loads")]);
    let file = nettext::assemble(net).expect("a text that is well formed").file;
    assert_eq!(blocks(&readme, "netrun"), [String::from_utf8_lossy(&engine::netrun(&file))]);
    assert_eq!(blocks(&readme, "netpage"), [String::from_utf8_lossy(&engine::netpage(&file))]);
}

/// The tables after the last pick of a text, by these picks, and how many picks were refused.
fn left(text: &str, picks: &str) -> (String, String) {
    let source = Source::of_text("net.nettext", text.as_bytes()).expect("a text");
    let picks = parse_picks(picks).expect("picks");
    let told = told(&source, Some(picks)).expect("a net that loads");
    let (_, last) = told.split_once("after the last pick\n").expect("the last part");
    let (tables, total) = last.split_once("\n\n").expect("the total");
    let refused = total.split([',', ';']).nth(1).expect("how many are refused");
    (tables.to_owned(), refused.trim().to_owned())
}

/// What a reader of the tour is asked to try comes to what the tour says.
#[test]
fn the_tries_of_the_tour() {
    let gamma = read("examples/tour/gamma.nettext");
    for (sum, alike) in [("x1 - 170", true), ("x1 - 175", false)] {
        let text = gamma.replace("x1 - 5", sum);
        assert_eq!(left(&text, "0:0 0:0") == left(&text, "1:0 0:0"), alike, "{sum}");
        assert!(read(TOUR).contains(&format!("`{sum}`")));
    }
    let refused = read("examples/tour/refused.nettext");
    let (tables, none) = left(&refused, "1:0 0:0 0:0");
    assert_eq!((tables, none.as_str()), (left(&refused, "0 0 1 0 0").0, "0 refused"));
    assert!(read(TOUR).contains("--picks \"1:0 0:0 0:0\""));
    let branches = "0 0 0:0 1 1 0:1 1 1 0:2 1 1 0";
    let (tables, none) = left(&read("examples/tour/stores.nettext"), branches);
    assert!(tables.contains("(\"SHP2\", \"HIGH\", 53)") && none == "0 refused");
    assert!(read(TOUR).contains(&format!("--picks \"{branches}\"")));
}
