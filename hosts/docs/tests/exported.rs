//! What C calls is a static library, on which no crate can stand, so that no theorem of crates/tight speaks of it. Each of its functions
//! passes on what it is lent to one of the library below it, and has that one's parameters, answer and clauses, letter by letter.

use std::path::Path;

use docs::layers::{crates, Crate};
use docs::names::{identifier, item};
use docs::{files, text};

/// A function of a crate: what stands between its name and its body, and the body.
#[derive(Debug)]
struct Function {
    name: String,
    promise: Vec<String>,
    body: String,
}

/// The public functions of a crate's sources.
fn functions(name: &str) -> Vec<Function> {
    let sources = files(Path::new("crates").join(name).join("src"), &[".rt"]);
    sources.iter().flat_map(|path| read(&text(path))).collect()
}

/// The public functions of a file. Outside of comments a body begins and ends with a brace at the start of a line.
fn read(source: &str) -> Vec<Function> {
    let lines = source
        .lines()
        .filter(|line| !line.trim_start().starts_with("//"));
    let mut lines = lines.peekable();
    let mut found = Vec::new();
    while let Some(line) = lines.next() {
        let Some(("fn", name)) = item(line).filter(|_| line.starts_with("pub ")) else {
            continue;
        };
        let (_, head) = line.split_once(&name).expect("the line has the name");
        let mut promise = vec![head.to_string()];
        while let Some(line) = lines.next_if(|line| *line != "{") {
            promise.push(line.to_string());
        }
        let body: Vec<&str> = lines.by_ref().take_while(|line| *line != "}").collect();
        let body = body.join("\n");
        found.push(Function {
            name,
            promise,
            body,
        });
    }
    found
}

/// What is wrong with a function that C calls, if anything: `below` gives the public functions of a crate.
fn fault(exported: &Function, below: &dyn Fn(&str) -> Vec<Function>) -> Option<String> {
    let name = &exported.name;
    let call = exported.body.trim_start_matches('{').trim();
    let Some((owner, rest)) = call.split_once("::") else {
        return Some(format!("{name} calls no function of another crate: {call}"));
    };
    let (called, rest) = rest.split_at(identifier(rest).len());
    if !rest.starts_with('(') || !rest.ends_with(')') || rest.contains(';') {
        return Some(format!("{name} does more than to call {owner}::{called}"));
    }
    let Some(function) = below(owner).into_iter().find(|one| one.name == called) else {
        return Some(format!(
            "{name} calls {owner}::{called}, which is no public function"
        ));
    };
    (function.promise != exported.promise).then(|| {
        format!(
            "{name} does not promise what {owner}::{called} does:\n{}\nand not\n{}",
            exported.promise.join("\n"),
            function.promise.join("\n")
        )
    })
}

#[test]
fn what_c_calls_promises_what_the_library_promises() {
    let for_c: Vec<&Crate> = crates().iter().filter(|part| part.is_for_c).collect();
    assert!(!for_c.is_empty(), "crates.txt has no static library");
    for part in for_c {
        let exported = functions(&part.name);
        assert!(!exported.is_empty(), "crates/{} exports nothing", part.name);
        for function in exported {
            let fault = fault(&function, &functions);
            assert!(
                fault.is_none(),
                "crates/{}: {}",
                part.name,
                fault.unwrap_or_default()
            );
        }
    }
}

#[test]
fn a_function_that_promises_or_does_something_else_is_found() {
    let library = "// a comment\npub fn low(t: &mut [u8]) -> i32\n    ensures a { result ≡ 1 }\n{\n    1\n}\n";
    let below = |_: &str| read(library);
    let said = |source: &str| {
        let found = read(source);
        assert_eq!(found.len(), 1);
        fault(&found[0], &below).unwrap_or_default()
    };
    let good = "#[unsafe(no_mangle)]\npub extern \"C\" fn door(t: &mut [u8]) -> i32\n    ensures a { result ≡ 1 }\n{\n    lib::low(t)\n}\n";
    assert_eq!(said(good), "");
    let weaker = good.replace("    ensures a { result ≡ 1 }\n", "");
    assert!(said(&weaker).contains("does not promise"));
    let other = good.replace("t: &mut", "t: &");
    assert!(said(&other).contains("does not promise"));
    let more = good.replace("lib::low(t)", "lib::low(t);\n    0");
    assert!(said(&more).contains("does more"));
    let none = good.replace("lib::low(t)", "1");
    assert!(said(&none).contains("calls no function"));
    let gone = good.replace("lib::low", "lib::high");
    assert!(said(&gone).contains("no public function"));
}
