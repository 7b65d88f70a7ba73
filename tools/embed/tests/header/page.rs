//! A C program that goes by the header alone prints the pages that netpage prints.

use crate::compiled::{compile, printed, Language};
use crate::stored::{nets, LIBRARY};

#[test]
fn a_program_in_c_prints_pages() {
    for language in Language::all() {
        let program = compile("page", include_str!("page.c"), language, &LIBRARY);
        for net in nets() {
            let expected = engine::netpage(&net);
            assert_eq!(printed(&program, &net), String::from_utf8_lossy(&expected));
        }
    }
}
