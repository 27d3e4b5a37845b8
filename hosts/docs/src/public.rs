//! The functions that a crate lets another one call: those of src/lib.rt and of its public modules, those of private modules that
//! a `pub use` passes on, the methods of the types among them, and those of traits, wherever the crate writes them.

use std::collections::BTreeSet;
use std::path::Path;
use std::slice::from_ref;

use crate::names::{identifier, item};
use crate::{text, top};

/// What a file says of functions that can be called from outside. A method is named with its type, as `Buffer::push`, and one of a trait as
/// the compiler names the implementation, as `U8FromOutcome::from`.
struct Module {
    functions: Vec<String>,
    of_traits: Vec<String>,
    modules: Vec<String>,
    public_modules: Vec<String>,
    passed_on: Vec<PassedOn>,
}

/// What a `pub use` passes on: the words of its path, and the name by which others call it.
struct PassedOn {
    words: Vec<String>,
    name: String,
}

/// Gives the text of a file in src/ by its path there.
type Source<'a> = &'a dyn Fn(&str) -> Option<String>;

/// The public functions of a library, each by the path by which another crate calls it, as `put_word`. A program has none.
pub fn functions(name: &str) -> BTreeSet<String> {
    let folder = Path::new("crates").join(name).join("src");
    found_in(&|file| {
        let path = folder.join(file);
        top().join(&path).is_file().then(|| text(path))
    })
}

fn found_in(source: Source) -> BTreeSet<String> {
    let mut found = BTreeSet::new();
    collect(&[], &[], source, &mut found);
    collect_of_traits(&[], source, &mut found);
    found
}

/// The methods of traits, which are public in every module.
fn collect_of_traits(path: &[String], source: Source, found: &mut BTreeSet<String>) {
    let Some(module) = module(path, source) else {
        return;
    };
    for name in &module.of_traits {
        found.insert([path, from_ref(name)].concat().join("::"));
    }
    for name in &module.modules {
        collect_of_traits(&[path, from_ref(name)].concat(), source, found);
    }
}

/// The module at a path, where the crate has one there.
fn module(path: &[String], source: Source) -> Option<Module> {
    let file = path.join("/");
    let text = match path {
        [] => source("lib.rt"),
        _ => source(&format!("{file}.rt")).or_else(|| source(&format!("{file}/mod.rt"))),
    };
    text.map(|text| parsed(&text, &file))
}

fn parsed(text: &str, file: &str) -> Module {
    let mut module = Module {
        functions: Vec::new(),
        of_traits: Vec::new(),
        modules: Vec::new(),
        public_modules: Vec::new(),
        passed_on: Vec::new(),
    };
    // the type, or the type and the trait, whose methods are at hand
    let mut owner = None;
    let mut of_trait = None;
    let mut lines = text.lines();
    while let Some(line) = lines.next() {
        if line.starts_with("impl") {
            owner = methods_of(line);
            of_trait = methods_of_trait(line);
        } else if line.starts_with('}') {
            owner = None;
            of_trait = None;
        }
        if line.starts_with("pub use ") {
            let mut whole = line.to_string();
            while !whole.contains(';') {
                let Some(next) = lines.next() else { break };
                whole += next.trim();
            }
            let paths = whole["pub use ".len()..].trim_end_matches(';');
            module.passed_on.extend(expanded(paths));
        }
        let rest = line.trim_start();
        match (item(rest), &of_trait) {
            (Some(("fn", name)), Some(owner)) => module.of_traits.push(format!("{owner}::{name}")),
            (Some(("mod", name)), _) if rest.ends_with(';') => module.modules.push(name),
            _ => {}
        }
        match item(rest).filter(|_| rest.starts_with("pub ")) {
            Some(("fn", name)) => {
                let is_outer = rest.len() == line.len();
                assert!(
                    is_outer || owner.is_some(),
                    "src/{file}: {name} is public in a block of no type, which is not read here"
                );
                let owner = owner.as_ref().filter(|_| !is_outer);
                module.functions.push(match owner {
                    Some(owner) => format!("{owner}::{name}"),
                    None => name,
                });
            }
            Some(("mod", name)) => module.public_modules.push(name),
            _ => {}
        }
    }
    module
}

/// What stands behind the `impl` of a line, and behind its parameters.
fn behind_impl(line: &str) -> Option<&str> {
    let rest = line.strip_prefix("impl")?;
    let rest = match rest.starts_with('<') {
        true => behind_brackets(rest)?,
        false => rest.strip_prefix(' ')?,
    };
    Some(rest.trim_start())
}

/// The type whose own methods a line begins, as `impl<const N: usize> Buffer<N> {`.
fn methods_of(line: &str) -> Option<String> {
    let rest = behind_impl(line)?;
    let name = identifier(rest);
    (!rest.contains(" for ") && !name.is_empty()).then_some(name)
}

/// The type and the trait whose methods a line begins, in one word: `impl From<u8> for Outcome {` is `OutcomeFromU8`.
fn methods_of_trait(line: &str) -> Option<String> {
    let (of_trait, of_type) = behind_impl(line)?.split_once(" for ")?;
    let of_type = identifier(of_type.trim_start());
    let words = of_trait.split(|c: char| !c.is_alphanumeric() && c != '_');
    Some(
        std::iter::once(of_type.as_str())
            .chain(words)
            .map(capital)
            .collect(),
    )
}

/// A word with a capital.
fn capital(word: &str) -> String {
    let mut letters = word.chars();
    let first = letters.next().map(|c| c.to_ascii_uppercase());
    first.into_iter().chain(letters).collect()
}

/// What stands behind the angle brackets that a text begins with. The arrow of a bound, as in `<F: Fn() -> u8>`, closes none.
fn behind_brackets(text: &str) -> Option<&str> {
    let mut depth = 0;
    let mut before = ' ';
    for (at, c) in text.char_indices() {
        match c {
            '<' => depth += 1,
            '>' if before != '-' => depth -= 1,
            _ => {}
        }
        if depth == 0 {
            return Some(&text[at + 1..]);
        }
        before = c;
    }
    None
}

/// The paths of a `pub use`: one, or several between braces.
fn expanded(paths: &str) -> Vec<PassedOn> {
    let passed_on = |path: &str| -> PassedOn {
        let (path, name) = match path.split_once(" as ") {
            Some((path, name)) => (path, Some(name.trim().to_string())),
            None => (path, None),
        };
        let words: Vec<String> = path
            .split("::")
            .map(|word| word.trim().to_string())
            .collect();
        let last = words.last().cloned().unwrap_or_default();
        PassedOn {
            words,
            name: name.unwrap_or(last),
        }
    };
    let Some((head, rest)) = paths.split_once('{') else {
        return vec![passed_on(paths)];
    };
    let inner = rest.trim_end().trim_end_matches('}').split(',');
    let inner = inner.filter(|path| !path.trim().is_empty());
    inner
        .map(|path| passed_on(&format!("{head}{path}")))
        .collect()
}

/// All that can be called by way of a module, which others reach by the path `public`.
fn collect(path: &[String], public: &[String], source: Source, found: &mut BTreeSet<String>) {
    let Some(module) = module(path, source) else {
        return;
    };
    for name in &module.functions {
        found.insert([public, from_ref(name)].concat().join("::"));
    }
    for name in &module.public_modules {
        let name = from_ref(name);
        collect(
            &[path, name].concat(),
            &[public, name].concat(),
            source,
            found,
        );
    }
    for passed_on in &module.passed_on {
        pass_on(path, public, passed_on, source, found);
    }
}

/// What one path of a `pub use` in a module lets others call: a function, the methods of a type, or all of a module. What is another
/// crate's counts there.
fn pass_on(
    path: &[String],
    public: &[String],
    passed_on: &PassedOn,
    source: Source,
    found: &mut BTreeSet<String>,
) {
    let words = &passed_on.words;
    let (start, words) = match words[0].as_str() {
        "crate" => (&[][..], &words[1..]),
        "self" => (path, &words[1..]),
        "super" => (&path[..path.len().saturating_sub(1)], &words[1..]),
        _ => (path, &words[..]),
    };
    let Some((last, between)) = words.split_last() else {
        return;
    };
    let home = [start, between].concat();
    let Some(owner) = module(&home, source) else {
        return;
    };
    let whole = [&home[..], from_ref(last)].concat();
    let named = [public, from_ref(&passed_on.name)].concat();
    let further = owner.passed_on.iter().find(|further| &further.name == last);
    let of_type = format!("{last}::");
    let methods = owner.functions.iter();
    let methods = methods.filter_map(|name| name.strip_prefix(&of_type));
    for method in methods {
        found.insert([&named[..], &[method.to_string()]].concat().join("::"));
    }
    if last == "*" {
        collect(&home, public, source, found);
    } else if owner.functions.contains(last) {
        found.insert(named.join("::"));
    } else if let Some(further) = further.filter(|_| home != path) {
        let words = further.words.clone();
        let name = passed_on.name.clone();
        pass_on(&home, public, &PassedOn { words, name }, source, found);
    } else {
        collect(&whole, &named, source, found);
    }
}

#[cfg(test)]
mod tests {
    use super::*;

    fn found(files: &[(&str, &str)]) -> Vec<String> {
        let source = |name: &str| {
            let file = files.iter().find(|(file, _)| *file == name);
            file.map(|(_, text)| text.to_string())
        };
        found_in(&source).into_iter().collect()
    }

    #[test]
    fn public_functions_of_the_root_count_and_private_ones_do_not() {
        let root = "pub fn a(x: u8)\n{\n}\nfn b()\n{\n}\npub extern \"C\" fn c()\n{\n}\npub struct D {\n    pub e: u8,\n}\n";
        assert_eq!(found(&[("lib.rt", root)]), ["a", "c"]);
    }

    #[test]
    fn a_public_module_counts_and_a_private_one_does_not() {
        let files = [
            ("lib.rt", "pub mod m;\nmod n;\n"),
            ("m.rt", "pub mod o;\npub fn a()\n"),
            ("m/o.rt", "pub fn b()\n"),
            ("n.rt", "pub fn c()\n"),
        ];
        assert_eq!(found(&files), ["m::a", "m::o::b"]);
    }

    #[test]
    fn what_is_passed_on_counts() {
        let private = ("n.rt", "pub fn a()\npub fn b()\npub fn c()\npub fn d()\n");
        let root =
            "mod n;\npub use n::a;\npub use crate::n::{b as e,\n    c};\npub use records::load;\n";
        assert_eq!(found(&[("lib.rt", root), private]), ["a", "c", "e"]);
        let root = "mod n;\npub use self::n::*;\n";
        assert_eq!(found(&[("lib.rt", root), private]), ["a", "b", "c", "d"]);
        let root = "mod n;\npub use n;\n";
        assert_eq!(found(&[("lib.rt", root), private]).len(), 4);
    }

    #[test]
    fn a_public_method_counts_with_its_type_and_a_traits_with_both() {
        let root = "\
pub struct A<const N: usize> {
    pub b: u8,
}
impl<const N: usize> Model for A<N> {
    fn c()
}
impl<const N: usize> A<N> {
    pub fn d(&self)
    {
    }
    fn e(self)
}
impl From<u8> for A {
    fn f(byte: u8)
    {
    }
}
impl<'a, F: Fn() -> u8> B<'a, F> {
    pub const fn g()
}
impl C {
    pub fn h()
    {
    }
}
pub fn i()
";
        let all = ["A::d", "AFromU8::f", "AModel::c", "B::g", "C::h", "i"];
        assert_eq!(found(&[("lib.rt", root)]), all);
    }

    #[test]
    fn a_traits_method_counts_in_a_private_module() {
        let private = "impl From<A> for u8 {\n    fn from(a: A)\n}\npub fn b()\n";
        let files = [("lib.rt", "mod m;\n"), ("m.rt", private)];
        assert_eq!(found(&files), ["m::U8FromA::from"]);
    }

    #[test]
    fn the_methods_of_a_type_that_is_passed_on_count() {
        let private =
            "pub struct T {\n}\nimpl T {\n    pub fn a()\n}\nimpl U {\n    pub fn b()\n}\n";
        let files = [("lib.rt", "mod m;\npub use m::T;\n"), ("m.rt", private)];
        assert_eq!(found(&files), ["T::a"]);
        let files = [("lib.rt", "pub mod m;\n"), ("m.rt", private)];
        assert_eq!(found(&files), ["m::T::a", "m::U::b"]);
    }

    #[test]
    #[should_panic(expected = "no type")]
    fn a_public_function_of_another_block_is_refused() {
        found(&[("lib.rt", "mod m {\n    pub fn a()\n}\n")]);
    }

    #[test]
    fn what_is_passed_on_twice_counts_once() {
        let files = [
            ("lib.rt", "mod m;\npub use m::a;\npub use m::T;\n"),
            ("m.rt", "mod n;\npub use n::a;\npub struct T {\n}\n"),
            ("m/n.rt", "pub fn a()\npub fn b()\n"),
        ];
        assert_eq!(found(&files), ["a"]);
    }
}
