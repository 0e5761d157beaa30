//! The object files of an archive, or one object file that stands alone.

const ARCHIVE: &[u8] = b"!<arch>\n";
const OBJECT: &[u8] = b"\x7fELF";
const HEADER: usize = 60;

/// The bytes of each object file; the archive's own index and names are left out.
pub fn objects(bytes: &[u8]) -> Result<Vec<&[u8]>, String> {
    if bytes.starts_with(OBJECT) {
        return Ok(vec![bytes]);
    }
    let mut rest = bytes
        .strip_prefix(ARCHIVE)
        .ok_or("neither an archive nor an object file")?;
    let mut found = Vec::new();
    while !rest.is_empty() {
        let header = rest.get(..HEADER).ok_or("a member's header is cut off")?;
        let size = size(header)?;
        let member = rest[HEADER..].get(..size).ok_or("a member is cut off")?;
        if !own(header) {
            found.push(member);
        }
        // Each member begins at an even place.
        let end = HEADER + size + size % 2;
        rest = rest.get(end..).unwrap_or(&[]);
    }
    Ok(found)
}

/// Whether the member is the archive's own: the index of its symbols or its table of long names.
fn own(header: &[u8]) -> bool {
    let name = header[..16].trim_ascii_end();
    [&b"/"[..], b"//", b"/SYM64/"].contains(&name)
}

fn size(header: &[u8]) -> Result<usize, String> {
    std::str::from_utf8(&header[48..58])
        .ok()
        .and_then(|text| text.trim_end().parse().ok())
        .ok_or_else(|| "a member without a size".to_string())
}
