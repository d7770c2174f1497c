//! The scripts that a document works through.

/// Runs of lines that are indented, as code is, and of lines that aren't.
pub fn blocks(document: &str) -> Vec<Vec<&str>> {
    let lines: Vec<&str> = document.lines().collect();
    lines.chunk_by(|one, next| is_code(one) == is_code(next)).map(<[&str]>::to_vec).collect()
}

pub fn is_code(line: &str) -> bool {
    line.starts_with("    ")
}

/// Each script with what it prints: two blocks of code with `prints` and nothing else between.
pub fn scripts(document: &str) -> Vec<(String, String)> {
    let code = |block: &[&str]| -> String {
        block
            .iter()
            .filter_map(|line| line.strip_prefix("    "))
            .map(|l| format!("{l}\n"))
            .collect()
    };
    let blocks = blocks(document);
    let pairs =
        blocks.windows(3).filter(|three| is_code(three[0][0]) && three[1].concat() == "prints");
    pairs.map(|three| (code(&three[0]), code(&three[2]))).collect()
}
