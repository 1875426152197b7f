//! The lines and columns of offsets, and byte order marks.

use first_pass::{Error, LineIndex, Options, Place, parse, strip_bom};

/// The line and the two columns of a place.
fn numbers(place: Place) -> (usize, usize, usize) {
    (place.line, place.column, place.utf16_column)
}

/// The place of an offset between two characters, from the start of the text.
fn counted(text: &str, offset: usize) -> (usize, usize, usize) {
    let mut line = 1;
    let mut start = 0;
    for (at, character) in text[..offset].char_indices() {
        let both = character == '\r' && text[at + 1..].starts_with('\n');
        if character == '\n' || character == '\r' && !both {
            line += 1;
            start = at + 1;
        }
    }
    let before = &text[start..offset];
    (line, before.len() + 1, before.encode_utf16().count() + 1)
}

#[test]
fn rows() -> Result<(), Error> {
    let index = LineIndex::new("aé😀z\r\n\rb\n")?;
    for (offset, wanted) in [
        (0, (1, 1, 1)),
        (1, (1, 2, 2)),
        (3, (1, 4, 3)),
        (5, (1, 6, 5)),
        (7, (1, 8, 5)),
        (8, (1, 9, 6)),
        (9, (1, 10, 7)),
        (10, (2, 1, 1)),
        (11, (3, 1, 1)),
        (12, (3, 2, 2)),
        (13, (4, 1, 1)),
    ] {
        assert_eq!(index.line_column(offset).map(numbers), Some(wanted), "{offset}");
    }
    assert_eq!((index.line_column(14), index.line_column(usize::MAX)), (None, None));
    Ok(())
}

#[test]
fn each_offset() -> Result<(), Error> {
    let line = "é😀 a€".repeat(150);
    let mut texts = vec![String::new(), line.clone(), format!("{line}\r\n{line}\r{line}\n")];
    texts.push("a\r\n\r\rbcd\n".repeat(100));
    for length in 254..259 {
        texts.push("\r\n".repeat(length / 2) + &"a".repeat(length % 2) + "\r\n\n");
        texts.push("\r".repeat(length) + "\n");
        texts.push("a".repeat(length) + "\r\n😀");
    }
    for text in texts {
        let index = LineIndex::new(&text)?;
        assert_eq!(index.text(), text);
        for offset in (0..=text.len()).filter(|offset| text.is_char_boundary(*offset)) {
            let found = index.line_column(offset).map(numbers);
            assert_eq!(found, Some(counted(&text, offset)), "{offset} of {text:?}");
        }
        assert_eq!(index.line_column(text.len() + 1), None);
    }
    Ok(())
}

#[test]
fn byte_order_marks() -> Result<(), Error> {
    let text = "\u{feff}# a\n";
    let kinds = |text| -> Result<Vec<_>, Error> {
        Ok(parse(text, Options::COMMONMARK)?
            .tree()
            .nodes()
            .map(|node| node.body().name())
            .collect())
    };
    assert_eq!(kinds(text)?, ["Root", "Paragraph", "Text"]);
    assert_eq!(kinds(strip_bom(text))?, ["Root", "Heading", "Text"]);
    for (text, wanted) in [("", ""), ("\u{feff}", ""), ("\u{feff}\u{feff}a", "\u{feff}a")] {
        assert_eq!(strip_bom(text), wanted);
    }
    assert_eq!(strip_bom("a\u{feff}"), "a\u{feff}");
    Ok(())
}
