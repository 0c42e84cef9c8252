//! Hands the repository's files to the compiler as they are.
mod originals;

fn main() {
    originals::declare(|_, text| text.to_string(), "");
}
