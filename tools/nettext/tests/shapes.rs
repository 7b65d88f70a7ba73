//! Files that are not what a program reads, and what editors put into texts.

use nettext::{assemble, read_text, text_for_records, TEXT_LIMIT};

/// What is wrong with the bytes as a text, as it is shown.
fn no_text(bytes: &[u8]) -> String {
    let errors = read_text(bytes).expect_err("no text");
    errors.shown("net", &String::from_utf8_lossy(bytes))
}

#[test]
fn a_byte_order_mark_is_skipped() {
    let text = "\u{feff}pick thread 0\n";
    let read = read_text(text.as_bytes()).expect("a text");
    let with_mark = assemble(read).expect("a text that is well formed").file;
    assert!(assemble("pick thread 0\n").is_ok_and(|without| without.file == with_mark));
    let wrong = "\u{feff}pick thread x\n";
    let errors = assemble(wrong).err().expect("no thread place");
    let shown = "net:1:13: found \"x\", expected a thread place 0..255
    pick thread x
                ^
";
    assert_eq!(errors.shown("net", wrong), shown);
    // In the middle of a text it is no more than a character that means nothing.
    assert!(assemble("pick thread 0\n\u{feff}pick thread 0\n").is_err());
}

#[test]
fn records_are_no_text() {
    let shown = "net: these are records, and a text is expected
what to do: netdump shows records as text, and netrun runs them
";
    let records = |text: &str| assemble(text).expect("a text that is well formed").file;
    for text in [
        "alias @1 at site 0 is site 1",
        "table CARD at site 0 (Int)",
        "process p:\ndrop CARD @1",
        "start node 0 at site 0",
        "pick thread 0",
    ] {
        let file = records(text);
        assert_eq!(no_text(&file), shown, "{text}");
        assert_eq!(no_text(&file[..50]), shown, "{text}");
    }
}

#[test]
fn utf_16_is_told() {
    let shown = "net: this is text in UTF-16, and UTF-8 is expected
what to do: save it as UTF-8 (in Notepad: Save as, Encoding UTF-8), or turn it by: \
                 iconv -f UTF-16 -t UTF-8
";
    let units = "\u{feff}# Wörter\r\npick thread 0\r\n".encode_utf16();
    let little: Vec<u8> = units.clone().flat_map(u16::to_le_bytes).collect();
    let big: Vec<u8> = units.flat_map(u16::to_be_bytes).collect();
    assert_eq!(no_text(&little), shown);
    assert_eq!(no_text(&big), shown);
    assert!(text_for_records(&little).is_some() && text_for_records(&big).is_some());
    // Without the mark, too, however it begins and also with characters that have no zero.
    for text in ["# Wörter\r\npick thread 0\r\n", " \n# ≠\nrow", "#a"] {
        let little: Vec<u8> = text.encode_utf16().flat_map(u16::to_le_bytes).collect();
        let big: Vec<u8> = text.encode_utf16().flat_map(u16::to_be_bytes).collect();
        assert_eq!([no_text(&little), no_text(&big)], [shown, shown], "{text}");
        assert!(text_for_records(&little).is_some() && text_for_records(&big).is_some(), "{text}");
    }
}

/// A comment would hide the lines after it.
#[test]
fn lines_that_end_in_carriage_returns_alone() {
    let to_do = "what to do: save it with the line ends of Linux or Windows, or turn it by: \
                 tr '\\r' '\\n'\n";
    let shown = "net: lines end in carriage returns alone, and line feeds are expected\n";
    for text in ["# a\rtable A at site 0 (Int)\r", "\u{feff}# a\r\rpick thread 0", "\r#"] {
        assert_eq!(no_text(text.as_bytes()), format!("{shown}{to_do}"), "{text:?}");
    }
    let shown = "\
net:2:4: this line ends in a carriage return alone, and a line feed is expected
    # a?table A at site 0 (Int)
       ^
";
    let mixed = "# one\r\n# a\rtable A at site 0 (Int)\r\n";
    assert_eq!(no_text(mixed.as_bytes()), format!("{shown}{to_do}"));
    // Before a line feed or at the end of the text, any number of them do no harm.
    for text in ["pick thread 0\r\n\r\r\npick thread 0\r", "\r", "\r\n", ""] {
        assert!(read_text(text.as_bytes()).is_ok(), "{text:?}");
    }
}

#[test]
fn a_text_has_its_limit() {
    let longest = "#".repeat(TEXT_LIMIT);
    assert!(read_text(longest.as_bytes()).is_ok());
    let shown = no_text(format!("{longest}#").as_bytes());
    assert!(shown.starts_with("net: a text of over 1048576 bytes, and no net needs"), "{shown}");
}

#[test]
fn texts_are_no_records() {
    for text in ["pick thread 0\n", "\u{feff}# Wörter\r\n\tpick thread 0", "# caf\u{e9}"] {
        let error = text_for_records(text.as_bytes()).expect("a text");
        let shown = "net: this is a text, and records are expected
what to do: netasm assembles a text to records
";
        assert_eq!(error.shown("net", ""), shown);
    }
    let record = assemble("pick thread 0").expect("a text that is well formed").file;
    for no_text in [&record[..], &record[..50], &[], &[1; 103], &[9; 104], &[0; 104]] {
        assert_eq!(text_for_records(no_text), None);
    }
}
