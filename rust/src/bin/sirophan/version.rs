//! Which build this is.

/// The version, and of a release the commit that it was made of and the prover; `tools/release` says these when it builds.
pub fn told() -> String {
    format!("sirophan {} ({})", sirophan::version(), option_env!("SIROPHAN_RELEASE").unwrap_or("unreleased"))
}
