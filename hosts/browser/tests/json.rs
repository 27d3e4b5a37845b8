//! JSON is read as it is written: escapes, nesting and numbers; and what is none is refused with the place.

use browser::json::{quoted, Value};

fn read(text: &str) -> Value {
    Value::parse(text).unwrap_or_else(|fault| panic!("{text}: {fault}"))
}

fn text(words: &str) -> Value {
    Value::Text(words.to_string())
}

#[test]
fn escapes_stand_for_their_characters() {
    for (string, words) in [
        (r#""""#, ""),
        (r#""\"\\\/\b\f\n\r\t""#, "\"\\/\u{8}\u{c}\n\r\t"),
        (r#""\u00e9\u2261\u0000""#, "é≡\0"),
        (r#""é≡😀""#, "é≡😀"),
        // a surrogate pair is one character, in digits of either case
        (r#""\ud83d\ude00\uD83D\uDE00""#, "😀😀"),
        (r#""\udbff\udfff""#, "\u{10ffff}"),
        // half a pair is none
        (
            r#""\ud83d|\ude00|\ud83d\u0041\ud83d\n""#,
            "\u{fffd}|\u{fffd}|\u{fffd}A\u{fffd}\n",
        ),
    ] {
        assert_eq!(read(string), text(words), "{string}");
    }
}

#[test]
fn what_is_quoted_is_read_back() {
    let words = "say \"≡\" \\ / \0 \n \u{1f} \u{7f} 😀 \u{2028}";
    assert_eq!(read(&quoted(words)), text(words));
    assert!(!quoted(words).contains('\0'), "a NUL ends a message");
}

#[test]
fn lists_and_records_stand_in_each_other() {
    let value = read(" { \"a\" : [ 1 , { \"b\" : [ ] , \"c\" : { } } , null ] ,\n\"d\":{\"e\":{\"f\":true}},\"g\":false}\t");
    assert_eq!(value.at("a").items().len(), 3);
    assert_eq!(value.at("a").items()[1].at("b"), &Value::List(Vec::new()));
    assert_eq!(value.at("a").items()[1].at("c"), &Value::Record(Vec::new()));
    assert_eq!(value.at("d.e.f"), &Value::Bool(true));
    assert_eq!(value.at("g"), &Value::Bool(false));
    assert_eq!(value.at("d.x.f"), &Value::Null);
    assert_eq!(value.at("g.x"), &Value::Null);
}

#[test]
fn numbers_are_read() {
    for (number, is) in [
        ("0", 0.0),
        ("-0", 0.0),
        ("17", 17.0),
        ("-1.5", -1.5),
        ("2e3", 2000.0),
        ("25E-1", 2.5),
        ("1.25e+2", 125.0),
        ("9007199254740991", 9_007_199_254_740_991.0),
    ] {
        assert_eq!(read(number).number(), Some(is), "{number}");
    }
}

#[test]
fn what_is_no_json_is_refused_with_the_place() {
    for (bad, said) in [
        ("", "a value is expected at byte 0, where the end stands"),
        ("nul", "a value is expected at byte 0"),
        ("1 2", "the end is expected at byte 2, where '2' stands"),
        ("01", "the end is expected at byte 1"),
        ("-", "a digit is expected at byte 1"),
        ("1.", "a digit is expected at byte 2"),
        ("1e", "a digit is expected at byte 2"),
        ("[1,]", "a value is expected at byte 3"),
        ("[1 2]", "`,` is expected at byte 3"),
        ("[", "a value is expected at byte 1"),
        ("{\"a\" 1}", "`:` is expected at byte 5"),
        ("{a:1}", "`\"` is expected at byte 1"),
        ("{\"a\":1,}", "`\"` is expected at byte 7"),
        ("\"abc", "`\\` is expected at byte 4, where the end stands"),
        ("\"a\nb\"", "`\\` is expected at byte 2"),
        ("\"\\x\"", "one of \"\\/bfnrtu is expected at byte 2"),
        ("\"\\u12\"", "four hexadecimal digits is expected at byte 3"),
        ("\"\\u+123\"", "four hexadecimal digits is expected"),
        ("\"\\u00≡\"", "four hexadecimal digits is expected"),
    ] {
        let fault = Value::parse(bad).expect_err(bad);
        assert!(fault.contains(said), "{bad}: {fault}");
    }
}

#[test]
fn endless_nesting_is_refused() {
    let deep = |levels: usize| "[".repeat(levels) + &"]".repeat(levels);
    assert!(Value::parse(&deep(256)).is_ok());
    let fault = Value::parse(&deep(100_000)).expect_err("it is too deep");
    assert!(fault.contains("no more than 256 levels"), "{fault}");
}
