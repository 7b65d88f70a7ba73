//! The engine against the texts computed by hand.

use generate::examples::all;

#[test]
fn prints_the_texts_computed_by_hand() {
    for example in all() {
        let text = String::from_utf8_lossy(&engine::netrun(&example.file)).into_owned();
        assert_eq!(text, example.text, "example {}", example.name);
    }
}

#[test]
fn lays_out_the_pages_computed_by_hand() {
    let pages = all().into_iter().filter_map(|example| Some((example.page?, example.file)));
    let pages: Vec<(String, Vec<u8>)> = pages.collect();
    assert!(!pages.is_empty());
    for (page, file) in pages {
        assert_eq!(String::from_utf8_lossy(&engine::netpage(&file)), page);
    }
}

#[test]
fn keeps_the_accounts() {
    for example in all() {
        let picks = engine::load(&example.file).map(|(_, picks)| picks).unwrap_or_default();
        assert_eq!(engine::accounts::check(&example.file, &picks), Ok(()), "{}", example.name);
    }
}
