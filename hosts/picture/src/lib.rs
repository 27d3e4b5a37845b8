//! The picture of the incident: two lanes and the cutter over the same requests, under the rules and under the rule of the incident. The
//! requests and the figures are those that crates/promises/specs/Incident.antt states as proved; the model runs them.

pub mod doors;
pub mod draw;
pub mod incident;
pub mod run;
mod source;
mod words;

use std::fs;
use std::path::{Path, PathBuf};

use incident::{Incident, FILE};

/// The picture, from the top of the repository.
pub const PICTURE: &str = "docs/incident.svg";

/// The top of the repository.
pub fn top() -> PathBuf {
    Path::new(env!("CARGO_MANIFEST_DIR")).join("../..")
}

/// The text of Incident.antt.
pub fn source() -> Result<String, String> {
    fs::read_to_string(top().join(FILE)).map_err(|error| format!("{FILE}: {error}"))
}

/// The picture that the file gives.
pub fn drawn() -> Result<String, String> {
    picture(&source()?)
}

/// The picture of `ruled` and `behind`, the same requests under the one rule and the other.
pub fn picture(source: &str) -> Result<String, String> {
    let incident = Incident::read(source)?;
    let (ruled, behind) = (incident.claim("ruled")?, incident.claim("behind")?);
    let is_whole = |claim: &incident::Claim| claim.from == 0 && claim.steps == claim.requests.len();
    if ruled.requests != behind.requests || !is_whole(ruled) || !is_whole(behind) {
        return Err(format!(
            "{FILE}: `ruled` and `behind` are expected to count the same requests as a whole, and do not"
        ));
    }
    draw::draw(
        &incident,
        &run::run(&incident, ruled)?,
        &run::run(&incident, behind)?,
    )
}
