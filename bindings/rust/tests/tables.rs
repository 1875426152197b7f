//! Link definitions and footnotes.

use first_pass::{Error, Options, parse};

#[test]
fn definitions_with_and_without_title() -> Result<(), Error> {
    let text = "[b]: /b 'B'\n[a]: </a b> \"\"\n[C]: c\n";
    let document = parse(text, Options::empty())?;
    let definitions = document.tree().definitions();
    let found: Vec<_> =
        definitions.iter().map(|it| (it.label, it.destination, it.title, it.range)).collect();
    assert_eq!(
        found,
        [("a", "/a b", Some(""), 12..26), ("b", "/b", Some("B"), 0..11), ("C", "c", None, 27..33),]
    );
    assert_eq!((definitions.len(), definitions.is_empty()), (3, false));
    Ok(())
}

#[test]
fn parts_of_definitions() -> Result<(), Error> {
    let text = "> [a\n> b]: <c>\n> 'd\n> e'\n\n[&ouml;]: \\&ouml;\n";
    let document = parse(text, Options::empty())?;
    let parts: Vec<_> = (document.tree().definitions().iter())
        .map(|it| (&text[it.label_range], &text[it.destination_range], it.title_range))
        .collect();
    assert_eq!(parts, [("&ouml;", "\\&ouml;", None), ("a\n> b", "<c>", Some(17..24))]);
    assert_eq!(&text[17..24], "'d\n> e'");
    Ok(())
}

#[test]
fn look_up_as_references_match() -> Result<(), Error> {
    let text = "[One two]: 1\n[ẞ]: 2\n[ a]: 3\n[\\]]: 4\n[é]: 5\n[one\n two]: 6\n";
    let document = parse(text, Options::empty())?;
    let definitions = document.tree().definitions();
    let find = |label| Ok::<_, Error>(definitions.get(label)?.map(|it| it.destination));
    for label in ["One two", "oNE TWO", "one\n\t two", "one\r\ntwo", "one\x0b\x0ctwo"] {
        assert_eq!(find(label)?, Some("1"), "{label:?}");
    }
    for label in ["ẞ", "ß", "SS", "ss", "sS"] {
        assert_eq!(find(label)?, Some("2"), "{label:?}");
    }
    for (label, wanted) in [(" A", "3"), ("\ta", "3"), ("a", "3"), ("a\r\n", "3"), ("\\]", "4")] {
        assert_eq!(find(label)?, Some(wanted), "{label:?}");
    }
    assert_eq!(find("one two ")?, Some("1"));
    assert_eq!((find("É")?, find("E\u{301}")?), (Some("5"), None));
    for label in ["", " ", "\t\n\x0b\x0c\r ", "]", "one", "one\u{a0}two", "\u{a0}a", "z\0"] {
        assert_eq!(find(label)?, None, "{label:?}");
    }
    Ok(())
}

/// White space at the ends of a label doesn't count: of the definitions whose labels differ in it alone, the one that
/// begins first is found, by each of their labels.
#[test]
fn look_up_by_the_ends_of_labels() -> Result<(), Error> {
    for (text, wanted, count) in [
        ("[ only ]: /1\n\n[only]", "/1", 1),
        ("[ only ]: /1\n[only]: /2", "/1", 2),
        ("[only]: /2\n[ only ]: /1", "/2", 2),
        ("[only ]: /3\n[ only ]: /1\n[ only]: /4\n[only]: /2", "/3", 4),
        ("[a]: /a\n[ Only]: /4\n[only]: /2\n[only ]: /3\n[zz]: /z\n[\tonly\n]: /1", "/4", 6),
    ] {
        let document = parse(text, Options::COMMONMARK)?;
        let definitions = document.tree().definitions();
        assert_eq!(definitions.len(), count, "{text:?}");
        for label in ["only", " ONLY", "only\n", "\t Only \r\n"] {
            let found = definitions.get(label)?.expect("it is defined");
            assert_eq!(found.destination, wanted, "{text:?} {label:?}");
        }
        assert_eq!((definitions.get("onl")?, definitions.get(" ")?), (None, None));
    }
    let document = parse("[\tA  b ]: /1\n[ ]: /2", Options::COMMONMARK)?;
    let definitions = document.tree().definitions();
    assert_eq!(definitions.get("a B")?.map(|it| it.label), Some(" A b "));
    assert_eq!(definitions.get("\na\t\tb")?, definitions.get(" a b ")?);
    assert_eq!((definitions.len(), definitions.get("ab")?, definitions.get(" ")?), (1, None, None));
    Ok(())
}

#[test]
fn definitions_one_after_the_other() -> Result<(), Error> {
    let document = parse("[b]: /2\n[A]: /1\n[a]: /3\n[c]: /4\n", Options::COMMONMARK)?;
    let definitions = document.tree().definitions();
    let mut destinations = Vec::new();
    for definition in definitions {
        destinations.push(definition.destination);
    }
    assert_eq!(destinations, ["/1", "/2", "/4"]);
    for (definition, destination) in (&definitions).into_iter().rev().zip(["/4", "/2", "/1"]) {
        assert_eq!(definition.destination, destination);
    }
    let mut iter = definitions.iter();
    assert_eq!(iter.len(), 3);
    assert!(iter.next().is_some());
    assert_eq!((iter.len(), format!("{iter:?}").matches("Definition {").count()), (2, 2));
    Ok(())
}

#[test]
fn each_of_many_labels_is_found() -> Result<(), Error> {
    for count in [0, 1, 2, 3, 100] {
        let text: String = (0..count).map(|at| format!("[Label {at} ΐ]: /{at}\n")).collect();
        let document = parse(&text, Options::empty())?;
        let definitions = document.tree().definitions();
        assert_eq!(definitions.iter().len(), count);
        for at in 0..count {
            let found = definitions.get(&format!("lABEL\t{at} ΐ"))?.unwrap();
            assert_eq!(found.destination, format!("/{at}"));
        }
        assert_eq!(definitions.get("label")?, None);
        assert_eq!(definitions.get("label 1000 ΐ")?, None);
    }
    Ok(())
}

#[test]
fn footnotes_are_listed_after_the_definitions() -> Result<(), Error> {
    let text = "[^b]: x\n\n[^A  a]: y\n\n[^B]: z\n\n[c]: /c\n";
    let document = parse(text, Options::ENABLE_FOOTNOTES)?;
    let tree = document.tree();
    assert!(tree.footnotes().eq(["A a", "b"]));
    assert_eq!(tree.definitions().len(), 1);
    assert_eq!(tree.definitions().get("^b")?, None);
    assert_eq!(tree.definitions().get("b")?, None);
    Ok(())
}

#[test]
fn no_definitions() -> Result<(), Error> {
    let document = parse("a\n", Options::all())?;
    assert!(document.tree().definitions().is_empty());
    assert_eq!(document.tree().definitions().iter().len(), 0);
    assert_eq!(document.tree().definitions().get("a")?, None);
    assert_eq!(document.tree().footnotes().len(), 0);
    Ok(())
}
