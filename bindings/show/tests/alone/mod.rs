//! What holds of every page.

use show::Keys;
use std::collections::BTreeSet;

/// A page needs nothing from outside, and each shortened key leads to its full form.
pub fn stands_alone(page: &str, keys: Keys) {
    for outside in ["http", "url(", "src=", "<script", "<link", "@import"] {
        assert!(!page.contains(outside), "{outside}");
    }
    let all = |mark: &str| -> BTreeSet<String> {
        let ends = page.split(mark).skip(1).filter_map(|rest| rest.split('"').next());
        ends.map(String::from).collect()
    };
    let links = all("href=\"#");
    assert_eq!(links, all("id=\""));
    assert_eq!(links.is_empty(), keys == Keys::Full);
}
