//! README's picture of the layers is the one that crates.txt gives, and crates.txt declares no dependency that is not used.

use docs::layers::{crates, picture, unused, with_picture};
use docs::text;

#[test]
fn the_picture_in_the_readme_is_drawn_from_crates_txt() {
    let readme = text("README.md");
    let drawn = with_picture(&readme, &picture())
        .expect("README.md has no picture of the layers between its two comments");
    let differs = readme
        .lines()
        .zip(drawn.lines())
        .position(|(is, ought)| is != ought);
    let line = differs.unwrap_or(0) + 1;
    assert!(
        readme == drawn,
        "README.md:{line}: the picture of the layers is not what crates.txt and the crates' first sentences give: \
         run hosts/docs/layers --write"
    );
}

#[test]
fn every_dependency_that_is_declared_is_used() {
    let faults: Vec<String> = crates()
        .iter()
        .flat_map(|part| {
            let name = &part.name;
            let unused = unused(part).into_iter();
            unused.map(move |need| {
                format!("crates.txt: {name} declares {need}, and nothing in crates/{name} names Rattle.{need} or {need}::")
            })
        })
        .collect();
    assert!(faults.is_empty(), "\n{}\n", faults.join("\n"));
}
