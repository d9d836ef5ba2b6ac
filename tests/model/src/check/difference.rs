//! The first line in which two outputs differ.

/// One output has the line, the other has another or none.
#[derive(Clone, PartialEq, Eq, Debug)]
pub struct Difference {
    pub line: usize,
    pub expected: Option<String>,
    pub actual: Option<String>,
}

impl Difference {
    pub fn between(expected: &[u8], actual: &[u8]) -> Option<Self> {
        let mut expected = expected.split_inclusive(|&byte| byte == b'\n');
        let mut actual = actual.split_inclusive(|&byte| byte == b'\n');
        for line in 1.. {
            match (expected.next(), actual.next()) {
                (None, None) => break,
                (here, there) if here != there => {
                    return Some(Difference { line, expected: here.map(shown), actual: there.map(shown) });
                }
                _ => {}
            }
        }
        None
    }
}

/// The bytes of a line, LF and all, in print and cut to a readable length, which any explained line has.
pub fn shown(line: &[u8]) -> String {
    const READABLE: usize = 500;
    let cut = &line[..line.len().min(READABLE)];
    let rest = if line.len() > READABLE { format!(".. ({} bytes)", line.len()) } else { String::new() };
    format!("{}{rest}", cut.escape_ascii())
}
