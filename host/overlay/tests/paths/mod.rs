//! A listing for tests, from its paths.

/// A listing by its paths, ascending: `x/` a directory, `x@` a link, `x` a file of 5 bytes; mtime bits 0.
pub fn listing(paths: &[&str]) -> Vec<u8> {
    let mut bytes = b"RDL\x01\x00".to_vec();
    bytes.extend((paths.len() as u32).to_le_bytes());
    for word in paths {
        let (path, kind) = match word.strip_suffix('/') {
            Some(path) => (path, 1),
            None => word.strip_suffix('@').map_or((*word, 2), |path| (path, 3)),
        };
        bytes.extend((path.len() as u16).to_le_bytes());
        bytes.push(kind);
        bytes.extend([0; 8]);
        bytes.extend(if kind == 2 { 5u64 } else { 0 }.to_le_bytes());
        bytes.extend(path.bytes());
    }
    bytes
}
