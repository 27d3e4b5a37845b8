//! What a page shows is read back, what is wrong with it is complained of, and its pictures have the size that was asked for.

use std::fs;
use std::path::PathBuf;
use std::sync::{Arc, Mutex, PoisonError, Weak};

use browser::{Browser, Media, Page, Size};

const SCREEN: Size = Size {
    width: 700,
    height: 400,
    mobile: false,
    scale: 1.0,
};

/// The browser of the tests that run now. The last of them ends it.
fn shared() -> Arc<Browser> {
    static RUNNING: Mutex<Weak<Browser>> = Mutex::new(Weak::new());
    let mut running = RUNNING.lock().unwrap_or_else(PoisonError::into_inner);
    running.upgrade().unwrap_or_else(|| {
        let started = Browser::start().unwrap_or_else(|fault| panic!("{fault}"));
        let started = Arc::new(started);
        *running = Arc::downgrade(&started);
        started
    })
}

/// A file in the browser's folder.
fn file(browser: &Browser, name: &str, text: &str) -> PathBuf {
    let path = browser.folder().join(name);
    fs::write(&path, text).expect("the file is written");
    path
}

/// A page with this body.
fn page<'a>(browser: &'a Browser, name: &str, body: &str) -> Page<'a> {
    let text = format!("<!doctype html><meta charset=utf-8><title>{name}</title>{body}");
    let path = file(browser, name, &text);
    let opened = browser.open(&path, SCREEN);
    opened.unwrap_or_else(|fault| panic!("{fault}"))
}

fn evaluated(page: &Page, expression: &str) -> String {
    let given = page.evaluate(expression);
    given.unwrap_or_else(|fault| panic!("{expression}: {fault}"))
}

/// The bytes of the page's picture, with its width and height.
fn picture(browser: &Browser, page: &Page, name: &str) -> (Vec<u8>, u32, u32) {
    let path = browser.folder().join(name);
    page.screenshot(&path).expect("the picture is written");
    let bytes = fs::read(path).expect("the picture is there");
    assert_eq!(bytes[..16], *b"\x89PNG\r\n\x1a\n\0\0\0\rIHDR");
    let side = |at: usize| u32::from_be_bytes(bytes[at..at + 4].try_into().expect("four bytes"));
    let (width, height) = (side(16), side(20));
    (bytes, width, height)
}

const WORDS: &str = "“Größe” ≡ \"1\\2\" 'x' 😀 日本";

#[test]
fn a_good_page_is_read_and_complains_of_nothing() {
    let browser = shared();
    let style = "<style>p { background: url(data:image/gif;base64,R0lGODlhAQABAAAAACw=) }</style>";
    let body = format!("{style}<p id=words>{WORDS}</p><a href='#words'>to the words</a>");
    let page = page(&browser, "a good page – é #1?%41 'x'.html", &body);
    let read = evaluated(&page, "document.getElementById('words').textContent");
    assert_eq!(read, WORDS);
    assert_eq!(
        evaluated(&page, &format!("{WORDS:?} + `\n\0`")),
        format!("{WORDS}\n\0")
    );
    let path = browser.folder().join("good.pdf");
    assert_eq!(page.pdf(&path), Ok(1));
    let printed = fs::read(path).expect("the print is there");
    assert!(printed.starts_with(b"%PDF"));
    let (_, width, height) = picture(&browser, &page, "good.png");
    assert_eq!((width, height), (SCREEN.width, SCREEN.height));
    evaluated(&page, "document.links[0].click(), location.hash");
    assert_eq!(page.complaints(), Vec::<String>::new());
}

/// The page with this body complains, and a line has all of these words.
fn complains(name: &str, body: &str, words: &[&[&str]]) {
    let browser = shared();
    let page = page(&browser, name, body);
    let complaints = page.complaints();
    for words in words {
        let has_all = |line: &&String| words.iter().all(|word| line.contains(word));
        let found = complaints.iter().any(|line| has_all(&line));
        assert!(found, "{words:?} in {complaints:#?}");
    }
    let is_line = |line: &String| !line.contains('\n') && !line.is_empty();
    assert!(complaints.iter().all(is_line), "{complaints:#?}");
}

#[test]
fn the_console_is_complained_of() {
    complains(
        "console.html",
        "<script>console.error('a ≡\\nb', 7, null, undefined, [1], true); console.log('said')</script>",
        &[
            &["console.error: a ≡ b 7 null undefined Array(1) true"],
            &["console.log: said"],
        ],
    );
}

#[test]
fn an_exception_is_complained_of() {
    complains(
        "throws.html",
        "<script>throw new Error('it breaks')</script><script>throw 'words'</script><script>Promise.reject(new Error('later'))</script>",
        &[
            &["exception: Error: it breaks"],
            &["exception: words"],
            &["exception: Error: later"],
        ],
    );
}

#[test]
fn what_a_page_asks_for_outside_is_complained_of() {
    let picture = "http://example.invalid/x.png";
    complains(
        "picture.html",
        &format!("<img src='{picture}'>"),
        &[
            &["request: ", picture],
            &["failed request: ", "net::ERR", picture],
            &["log: ", picture],
        ],
    );
    let script = "https://example.invalid/x.js";
    complains(
        "script.html",
        &format!("<script src='{script}'></script>"),
        &[&["request: ", script], &["failed request: ", script]],
    );
    complains(
        "beside.html",
        "<link rel=stylesheet href='style.css'><script>fetch('http://127.0.0.1:9/'); new WebSocket('ws://example.invalid/')</script>",
        &[
            &["request: ", "/style.css"],
            &["request: http://127.0.0.1:9/"],
            &["request: ws://example.invalid/"],
        ],
    );
    complains(
        "frame.html",
        "<iframe src='http://example.invalid/frame'></iframe><script>new Worker('data:,fetch(`http://example.invalid/`)')</script>",
        &[
            &["http://example.invalid/frame"],
            &["worker that is not watched: data:"],
        ],
    );
}

#[test]
fn a_file_beside_the_page_is_complained_of_although_it_is_there() {
    let browser = shared();
    file(&browser, "there.css", "p { color: red }");
    complains(
        "with.html",
        "<link rel=stylesheet href='there.css'>",
        &[&["request: file:///", "/there.css"]],
    );
}

#[test]
fn a_page_that_is_not_there_is_refused() {
    let browser = shared();
    for (name, said) in [
        ("none.html", "none.html: No such file"),
        ("", "a file is expected"),
    ] {
        let opened = browser.open(&browser.folder().join(name), SCREEN);
        let fault = opened.err().expect("there is no page");
        assert!(fault.contains(said), "{fault}");
    }
}

#[test]
fn an_expression_that_gives_no_string_is_refused() {
    let browser = shared();
    let page = page(&browser, "expressions.html", "");
    for (expression, said) in [
        ("1 + 1", "gives 2, of type number"),
        ("({})", "gives a record, of type object"),
        ("nothing.here", "ReferenceError: nothing is not defined"),
        ("(() => { throw 'thrown' })()", "thrown"),
        ("1 +", "SyntaxError"),
    ] {
        let fault = page.evaluate(expression).expect_err(expression);
        assert!(fault.contains(said), "{expression}: {fault}");
    }
    let late = "new Promise(done => setTimeout(() => done('late'), 20))";
    assert_eq!(evaluated(&page, late), "late");
}

#[test]
fn a_telephone_is_as_wide_as_it_is() {
    let browser = shared();
    let body = "<meta name=viewport content='width=device-width'><body style='margin:0'><div style='height:2000px'>";
    let path = file(&browser, "telephone.html", body);
    let size = Size {
        width: 360,
        height: 640,
        mobile: true,
        scale: 2.0,
    };
    let page = browser.open(&path, size).expect("the page opens");
    // a page behind another one is drawn too
    let _front = browser.open(&path, SCREEN).expect("the page opens");
    let shown = "[innerWidth, innerHeight, screen.width, devicePixelRatio, document.visibilityState].join(' ')";
    assert_eq!(evaluated(&page, shown), "360 640 360 2 visible");
    let (_, width, height) = picture(&browser, &page, "telephone.png");
    assert_eq!((width, height), (720, 4000));
}

#[test]
fn pages_of_paper_are_counted() {
    let browser = shared();
    let sheets = "<p style='break-after: page'>/Type /Page /Count 3</p>".repeat(20);
    let body = format!("<a href='https://example.invalid/Type /Page'>link</a>{sheets}<p>end");
    let page = page(&browser, "sheets.html", &body);
    assert_eq!(page.pdf(&browser.folder().join("sheets.pdf")), Ok(21));
}

#[test]
fn paper_has_a_style_of_its_own() {
    let browser = shared();
    let style = "<style>p { color: rgb(1, 2, 3) } @media print { p { color: rgb(4, 5, 6) } }</style><p>words";
    let page = page(&browser, "style.html", style);
    let colour = "getComputedStyle(document.querySelector('p')).color";
    assert_eq!(evaluated(&page, colour), "rgb(1, 2, 3)");
    page.emulate(Media::Print).expect("paper");
    assert_eq!(evaluated(&page, colour), "rgb(4, 5, 6)");
    page.emulate(Media::Screen).expect("the screen");
    assert_eq!(evaluated(&page, colour), "rgb(1, 2, 3)");
}

/// The first pixel of a picture, read by a page that has the picture in itself.
fn first_pixel(browser: &Browser, bytes: &[u8]) -> String {
    let bytes: String = bytes.iter().map(|byte| format!("%{byte:02x}")).collect();
    let body = format!("<canvas></canvas><img src='data:image/png,{bytes}'>");
    let page = page(browser, "pixel.html", &body);
    evaluated(
        &page,
        "(() => { const pen = document.querySelector('canvas').getContext('2d'); pen.drawImage(document.querySelector('img'), 0, 0); \
         return pen.getImageData(0, 0, 1, 1).data.join(' ') })()",
    )
}

#[test]
fn a_page_is_seen_without_its_colours() {
    let browser = shared();
    let page = page(&browser, "red.html", "<body style='background: #f00'>");
    let (red, _, _) = picture(&browser, &page, "red.png");
    assert_eq!(first_pixel(&browser, &red), "255 0 0 255");
    page.without_colour(true).expect("no colours");
    let (grey, _, _) = picture(&browser, &page, "grey.png");
    let pixel = first_pixel(&browser, &grey);
    let parts: Vec<&str> = pixel.split(' ').collect();
    assert!(parts[0] == parts[1] && parts[1] == parts[2], "{pixel}");
    page.without_colour(false).expect("colours");
    let (again, _, _) = picture(&browser, &page, "again.png");
    assert_eq!(first_pixel(&browser, &again), "255 0 0 255");
}
