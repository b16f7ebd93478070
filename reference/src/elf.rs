// The loaded sections of what was built: of an ELF program, of an ELF object, or of each object of an archive. 64 bits,
// little-endian.

/// A section that is loaded, and whose bytes stand in the file.
pub struct Section<'a> {
    pub name: String,
    pub address: u64,
    pub bytes: &'a [u8],
    pub code: bool,
}

impl Section<'_> {
    /// Whether it holds what a compiler wrote as data, and not what a linker or an assembler works out: addresses, names,
    /// frames.
    pub fn data(&self) -> bool {
        #[rustfmt::skip]
        const OTHERS: [&str; 11] = [
            ".eh_frame", ".dyn", ".rela", ".gnu.hash", ".gnu.version", ".note", ".hash", ".interp",
            ".init_array", ".fini_array", ".got",
        ];
        !self.code && !OTHERS.iter().any(|other| self.name.starts_with(other))
    }
}

pub struct Object<'a> {
    /// An archive's name for it; none for a file that is no archive.
    pub member: Option<String>,
    /// A program, and no object that is still to be linked.
    pub linked: bool,
    pub sections: Vec<Section<'a>>,
}

/// What stands in a file; or in which way it is none that can be looked at.
pub fn objects(file: &[u8]) -> Result<Vec<Object<'_>>, String> {
    if !file.starts_with(b"!<arch>\n") {
        return Ok(vec![object(None, file)?]);
    }
    let objects = members(file)?.into_iter().map(|(name, bytes)| {
        object(Some(name.clone()), bytes).map_err(|error| format!("its member {name}: {error}"))
    });
    let objects: Vec<Object<'_>> = objects.collect::<Result<_, _>>()?;
    if objects.is_empty() {
        return Err("an archive of no object".to_string());
    }
    Ok(objects)
}

/// The members of an archive, without its tables of symbols and of long names. Each has 60 bytes of text ahead.
fn members(archive: &[u8]) -> Result<Vec<(String, &[u8])>, String> {
    let (mut at, mut members) = (8, vec![]);
    while at < archive.len() as u64 {
        let header = part(archive, at, 60)?;
        let size = text(&header[48..58]).parse::<u32>().ok().filter(|_| header.ends_with(b"`\n"));
        let size = u64::from(size.ok_or_else(|| format!("no member of the archive at {at:#x}"))?);
        let bytes = part(archive, at + 60, size)?;
        match text(&header[..16]) {
            "/" | "/SYM64/" | "//" => {}
            name => members.push((name.trim_end_matches('/').to_string(), bytes)),
        }
        at += 60 + size + size % 2;
    }
    Ok(members)
}

/// A field that is filled up with spaces.
fn text(field: &[u8]) -> &str {
    std::str::from_utf8(field).unwrap_or_default().trim_end_matches(' ')
}

fn object(member: Option<String>, file: &[u8]) -> Result<Object<'_>, String> {
    let kind = number(file, 16, 2).unwrap_or(0);
    if !file.starts_with(b"\x7fELF\x02\x01") || !(1..=3).contains(&kind) {
        return Err("no ELF program or object of 64 bits, little-endian, and no archive of such".to_string());
    }
    let (place, size) = (number(file, 40, 8)?, number(file, 58, 2)?);
    let (count, names) = (number(file, 60, 2)?, number(file, 62, 2)?);
    if place == 0 || count == 0 || size != 64 {
        return Err("it has no section headers".to_string());
    }
    let headers = part(file, place, size * count)?;
    let (at, length) = span(part(headers, size * names, size)?)?;
    let names = part(file, at, length)?;
    let sections = headers.chunks_exact(64).filter_map(|header| section(file, header, names).transpose());
    let sections: Vec<Section<'_>> = sections.collect::<Result<_, _>>()?;
    // Of a file of debugging notes the sections of the program are there, and their bytes are not.
    if !sections.iter().any(|section| (section.code || section.data()) && !section.bytes.is_empty()) {
        return Err("no section of code or data is loaded from it".to_string());
    }
    Ok(Object { member, linked: kind != 1, sections })
}

/// The section of a header; none where it is not loaded, or has no bytes in the file.
fn section<'a>(file: &'a [u8], header: &[u8], names: &[u8]) -> Result<Option<Section<'a>>, String> {
    const NOBITS: u64 = 8;
    const ALLOC: u64 = 2;
    const EXECINSTR: u64 = 4;
    let (kind, flags) = (number(header, 4, 4)?, number(header, 8, 8)?);
    if kind == NOBITS || flags & ALLOC == 0 {
        return Ok(None);
    }
    let place = number(header, 0, 4)?;
    let name = part(names, place, (names.len() as u64).saturating_sub(place))?;
    let name = name.split(|&byte| byte == 0).next().unwrap_or_default();
    let (at, length) = span(header)?;
    Ok(Some(Section {
        name: String::from_utf8_lossy(name).into_owned(),
        address: number(header, 16, 8)?,
        bytes: part(file, at, length)?,
        code: flags & EXECINSTR != 0,
    }))
}

/// Where a section's bytes begin in the file, and how many they are.
fn span(header: &[u8]) -> Result<(u64, u64), String> {
    Ok((number(header, 24, 8)?, number(header, 32, 8)?))
}

fn number(bytes: &[u8], at: u64, width: u64) -> Result<u64, String> {
    Ok(little_endian(part(bytes, at, width)?))
}

/// Of at most eight bytes.
pub fn little_endian(bytes: &[u8]) -> u64 {
    bytes.iter().rev().fold(0, |number, &byte| number << 8 | u64::from(byte))
}

/// Bytes that a header speaks of. A file that is cut short or damaged does not have them.
fn part(bytes: &[u8], at: u64, length: u64) -> Result<&[u8], String> {
    let end = at.checked_add(length).filter(|&end| end <= bytes.len() as u64);
    let end = end.ok_or("cut short or damaged: its headers speak of bytes that are not there")?;
    Ok(&bytes[at as usize..end as usize])
}
