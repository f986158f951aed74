//! Traces of a machine in a file: paths, and lines of a build log. A script,
//! which begins with `#!`, may have both.

fn lines_with(bytes: &[u8], is_trace: fn(&[u8]) -> bool) -> Vec<usize> {
    if bytes.starts_with(b"#!") {
        return Vec::new();
    }
    let lines = bytes.split(|byte| *byte == b'\n').enumerate();
    let lines = lines.filter(|(_, line)| is_trace(line));
    lines.map(|(i, _)| i + 1).collect()
}

pub fn machines(bytes: &[u8]) -> Vec<usize> {
    lines_with(bytes, has_machine_path)
}

pub fn logs(bytes: &[u8]) -> Vec<usize> {
    lines_with(bytes, |line| is_log(&String::from_utf8_lossy(line)))
}

/// Folders at the root of a machine.
const ROOTS: [&str; 11] = [
    "work", "tmp", "root", "home", "opt", "usr", "var", "mnt", "srv", "etc", "Users",
];

fn has_machine_path(line: &[u8]) -> bool {
    let in_name = |byte: &u8| byte.is_ascii_alphanumeric() || b"_-".contains(byte);
    let slashes = (0..line.len()).filter(|at| line[*at] == b'/');
    let mut begins = slashes.filter(|at| {
        let before = at.checked_sub(1).map(|before| line[before]);
        !before.is_some_and(|byte| in_name(&byte) || b"/.*$}])~".contains(&byte))
    });
    begins.any(|at| {
        let rest = &line[at + 1..];
        ROOTS.iter().any(|root| {
            let after = rest.strip_prefix(root.as_bytes());
            after.is_some_and(|after| !after.first().is_some_and(in_name))
        })
    })
}

/// Is it a line of the tools' own output? What is looked for is put together
/// here, since this file is looked at too.
fn is_log(line: &str) -> bool {
    // `name`, a word, and behind it what begins with `then`.
    let tells = |name: &str, then: &str| {
        let rest = line.split(name).skip(1);
        let mut rest = rest.filter_map(|rest| rest.split_once(' '));
        rest.any(|(_, rest)| rest.starts_with(then))
    };
    // `name` and a number.
    let counts = |name: &str| {
        let mut rest = line.split(name).skip(1);
        rest.any(|rest| rest.starts_with(|c: char| c.is_ascii_digit()))
    };
    counts(concat!("loaded", "="))
        || counts(concat!("checked", "="))
        || line.contains(concat!("-built", "=trusted"))
        || line.contains(concat!("logic", "=proved"))
        || line.contains(concat!("note: ", "large solution"))
        || line.contains(concat!("Finished ", "`"))
        || tells("rt: ", "proved")
        || tells("Compiling ", "v0")
}
