//! Binds the original's modules, where they stand, into this crate.
//!
//! The environment variable ORIGINAL names the folder that holds them. The
//! originals call each other `crate::tokens` and `crate::petscii`, so they have
//! to be modules of the crate's root: the file written here is included there.

use std::fs;
use std::path::{Path, PathBuf};

const MODULES: [&str; 4] = ["petscii", "prg", "source", "tokens"];

/// Where the original looks for no more words at a place, and what is looked for there
/// under the option of short forms.
const BEHIND_WORDS: &str = "        if let Some((len, tok)) = match_keyword(OPS_V2, bytes, i) {\n";
const SHORT_FORMS: &str = "        if match_keyword(tsb_demoted, bytes, i).is_none()
            && let Some((len, tok)) = crate::forms::short_form(KEYWORDS_V2, &bytes[i..])
        {
            out.push(tok);
            in_rem |= tok == 0x8F;
            in_data |= tok == 0x83;
            i += len;
            continue;
        }
";

pub fn main() {
    println!("cargo::rerun-if-env-changed=ORIGINAL");
    println!("cargo::rerun-if-changed=build.rs");
    let folder = std::env::var_os("ORIGINAL").expect("ORIGINAL names the original's folder");
    let sources = Path::new(&folder).join("crates/core/src");
    let sources =
        fs::canonicalize(&sources).unwrap_or_else(|error| panic!("{}: {error}", sources.display()));

    let mut original = String::new();
    for module in MODULES {
        let path = sources.join(module).with_extension("rs");
        println!("cargo::rerun-if-changed={}", path.display());
        original +=
            &format!("#[allow(dead_code, clippy::all)]\n#[path = {path:?}]\npub mod {module};\n");
    }
    let formed = with_short_forms(&sources.join("source.rs"));
    original +=
        &format!("#[allow(dead_code, clippy::all)]\n#[path = {formed:?}]\npub mod formed;\n");
    original += &format!(
        "/// The original's word lists are private: `tables` reads them here.\n\
         pub const SOURCE_TEXT: &str = include_str!({:?});\n",
        sources.join("source.rs")
    );
    fs::write(out_dir().join("original.rs"), original).expect("OUT_DIR can be written");
}

/// The original's crunching with the look at short forms set in, as a file of its own.
fn with_short_forms(source: &Path) -> PathBuf {
    let text = fs::read_to_string(source).expect("the original can be read");
    assert_eq!(
        text.matches(BEHIND_WORDS).count(),
        1,
        "the place for short forms"
    );
    let formed = out_dir().join("formed.rs");
    let text = text.replace(BEHIND_WORDS, &format!("{SHORT_FORMS}{BEHIND_WORDS}"));
    fs::write(&formed, text).expect("OUT_DIR can be written");
    formed
}

fn out_dir() -> PathBuf {
    std::env::var_os("OUT_DIR")
        .expect("cargo sets OUT_DIR")
        .into()
}
