//! The set of options.

use first_pass::Options;

#[test]
fn bits() {
    assert_eq!(Options::empty().bits(), 0);
    assert_eq!(Options::all().bits(), 65534);
    assert_eq!(Options::default(), Options::empty());
    assert_eq!((Options::ENABLE_TABLES | Options::ENABLE_GFM).bits(), 2050);
}

/// The bits of each option are those of the command `first_pass`.
#[test]
fn bits_of_each_option() {
    for (option, bits) in [
        (Options::ENABLE_TABLES, 2),
        (Options::ENABLE_FOOTNOTES, 4),
        (Options::ENABLE_STRIKETHROUGH, 8),
        (Options::ENABLE_TASKLISTS, 16),
        (Options::ENABLE_SMART_PUNCTUATION, 32),
        (Options::ENABLE_HEADING_ATTRIBUTES, 64),
        (Options::ENABLE_YAML_STYLE_METADATA_BLOCKS, 128),
        (Options::ENABLE_PLUSES_DELIMITED_METADATA_BLOCKS, 256),
        (Options::ENABLE_OLD_FOOTNOTES, 516),
        (Options::ENABLE_MATH, 1024),
        (Options::ENABLE_GFM, 2048),
        (Options::ENABLE_DEFINITION_LIST, 4096),
        (Options::ENABLE_SUPERSCRIPT, 8192),
        (Options::ENABLE_SUBSCRIPT, 16384),
        (Options::ENABLE_WIKILINKS, 32768),
    ] {
        assert_eq!(option.bits(), bits, "{option:?}");
    }
}

/// The sets have the options that the command `first_pass` gives them.
#[test]
fn sets_with_names() {
    let github = Options::ENABLE_TABLES
        | Options::ENABLE_FOOTNOTES
        | Options::ENABLE_STRIKETHROUGH
        | Options::ENABLE_TASKLISTS
        | Options::ENABLE_GFM;
    let docs = github
        | Options::ENABLE_YAML_STYLE_METADATA_BLOCKS
        | Options::ENABLE_HEADING_ATTRIBUTES
        | Options::ENABLE_MATH
        | Options::ENABLE_DEFINITION_LIST;
    assert_eq!((Options::GITHUB, Options::DOCS), (github, docs));
    assert_eq!((Options::COMMONMARK, Options::default()), (Options::empty(), Options::empty()));
    assert_eq!(Options::ALL, Options::all());
}

#[test]
fn only_bits_of_options() {
    for bits in 0..=u32::from(u16::MAX) {
        let known = bits & 1 == 0;
        assert_eq!(Options::from_bits(bits).map(Options::bits), known.then_some(bits));
    }
    for bit in 16..32 {
        assert_eq!(Options::from_bits(1 << bit), None);
    }
    assert_eq!(Options::from_bits_truncate(u32::MAX), Options::all());
    assert_eq!(Options::from_bits_truncate(1), Options::empty());
}

#[test]
fn sets() {
    let mut options = Options::ENABLE_TABLES;
    options |= Options::ENABLE_OLD_FOOTNOTES;
    assert!(options.contains(Options::ENABLE_FOOTNOTES));
    assert!(!options.contains(Options::ENABLE_TABLES | Options::ENABLE_MATH));
    options.remove(Options::ENABLE_FOOTNOTES);
    assert!(!options.contains(Options::ENABLE_OLD_FOOTNOTES));
    options.insert(Options::ENABLE_MATH);
    assert_eq!(options & Options::ENABLE_MATH, Options::ENABLE_MATH);
    assert_eq!((options - options).bits(), 0);
    assert!((options - Options::all()).is_empty());
    const SET: Options = Options::ENABLE_TABLES.union(Options::ENABLE_TASKLISTS);
    assert_eq!(SET.bits(), 18);
}

#[test]
fn debug() {
    let shown = |bits| format!("{:?}", Options::from_bits_truncate(bits));
    assert_eq!(shown(0), "Options(0x0)");
    assert_eq!(shown(2), "Options(ENABLE_TABLES)");
    assert_eq!(shown(512), "Options(0x200)");
    assert_eq!(shown(516), "Options(ENABLE_FOOTNOTES | ENABLE_OLD_FOOTNOTES)");
    assert_eq!(shown(514), "Options(ENABLE_TABLES | 0x200)");
}
