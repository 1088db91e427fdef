//! The proved functions over lent slices, as crate `boundary` exports them. None asks anything of its arguments: bad ones are refused by number.

/// The section of a refusal, else 0. Places in the answer of [`read`] are this and the next six.
pub const SECTION: usize = 0;
/// The offset of a refusal, else 0.
pub const OFFSET: usize = 1;
/// The dimension, 2 or 3.
pub const DIMENSION: usize = 2;
/// How many nodes there are.
pub const NODES: usize = 3;
/// How many faces there are.
pub const FACES: usize = 4;
/// How many cells there are.
pub const CELLS: usize = 5;
/// How many zone records were filled.
pub const ZONES: usize = 6;
/// Words in the answer of [`read`].
pub const READ_WORDS: usize = 7;

/// How many faults there are. Places in the answer of [`audit`] are this and the next.
pub const TOTAL: usize = 0;
/// How many bytes of the list were written.
pub const BYTES: usize = 1;
/// Words in the answer of [`audit`].
pub const AUDIT_WORDS: usize = 2;

/// How many bytes the text has, 0 in a refusal: the one place in the answer of [`write`].
pub const LENGTH: usize = 0;
/// Words in the answer of [`write`].
pub const WRITE_WORDS: usize = 1;

extern "C" {
    fn ravneket_read(
        text: *const u8,
        text_len: usize,
        mantissas: *mut i64,
        mantissas_len: usize,
        exponents: *mut i32,
        exponents_len: usize,
        faces: *mut u32,
        faces_len: usize,
        cells: *mut u32,
        cells_len: usize,
        zones: *mut u32,
        zones_len: usize,
        answer: *mut u64,
        answer_len: usize,
    ) -> u32;

    fn ravneket_audit(
        dimension: u32,
        nodes: u32,
        faces: u32,
        cells: u32,
        face_rows: *const u32,
        face_rows_len: usize,
        cell_rows: *const u32,
        cell_rows_len: usize,
        counts: *mut u32,
        counts_len: usize,
        list: *mut u8,
        list_len: usize,
        answer: *mut u64,
        answer_len: usize,
    ) -> u32;

    fn ravneket_report(text: *const u8, text_len: usize, out: *mut u8, out_len: usize) -> usize;
    fn ravneket_write(
        dimension: u32,
        nodes: u32,
        faces: u32,
        cells: u32,
        mantissas: *const i64,
        mantissas_len: usize,
        exponents: *const i32,
        exponents_len: usize,
        face_rows: *const u32,
        face_rows_len: usize,
        cell_rows: *const u32,
        cell_rows_len: usize,
        zones: *const u32,
        zones_len: usize,
        text: *mut u8,
        text_len: usize,
        answer: *mut u64,
        answer_len: usize,
    ) -> u32;
}

/// Reads a mesh into lent tables. Answers 0 or the number of the refusal; `answer` gets section, offset, dimension, nodes, faces, cells, zones, as many as it has room for. A refusal changes nothing else.
pub fn read(
    text: &[u8],
    mantissas: &mut [i64],
    exponents: &mut [i32],
    faces: &mut [u32],
    cells: &mut [u32],
    zones: &mut [u32],
    answer: &mut [u64],
) -> u32 {
    // SAFETY: each pointer and length comes from one borrowed slice, and the borrows keep them apart.
    unsafe {
        ravneket_read(
            text.as_ptr(),
            text.len(),
            mantissas.as_mut_ptr(),
            mantissas.len(),
            exponents.as_mut_ptr(),
            exponents.len(),
            faces.as_mut_ptr(),
            faces.len(),
            cells.as_mut_ptr(),
            cells.len(),
            zones.as_mut_ptr(),
            zones.len(),
            answer.as_mut_ptr(),
            answer.len(),
        )
    }
}

/// Audits lent tables. Answers 0 or the number of the refusal; `answer` gets the total of faults and the bytes written to `list`, as many of the two as it has room for. A refusal changes neither `counts` nor `list`.
#[allow(clippy::too_many_arguments)]
pub fn audit(
    dimension: u32,
    nodes: u32,
    faces: u32,
    cells: u32,
    face_rows: &[u32],
    cell_rows: &[u32],
    counts: &mut [u32],
    list: &mut [u8],
    answer: &mut [u64],
) -> u32 {
    // SAFETY: as in `read`.
    unsafe {
        ravneket_audit(
            dimension,
            nodes,
            faces,
            cells,
            face_rows.as_ptr(),
            face_rows.len(),
            cell_rows.as_ptr(),
            cell_rows.len(),
            counts.as_mut_ptr(),
            counts.len(),
            list.as_mut_ptr(),
            list.len(),
            answer.as_mut_ptr(),
            answer.len(),
        )
    }
}

/// What the report program prints of a text of at most 65,536 bytes: as many of its bytes as `out` has room for. Answers how many these are.
pub fn report(text: &[u8], out: &mut [u8]) -> usize {
    // SAFETY: as in `read`.
    unsafe { ravneket_report(text.as_ptr(), text.len(), out.as_mut_ptr(), out.len()) }
}

/// Writes the text of lent tables, the only one that belongs to them. Every whole record of `zones` is a section. Answers 0, 18 or 19; `answer` gets the length of the text, 0 in a refusal, if it has room for it. A refusal changes no byte of `text`, and bytes behind the text stay.
#[allow(clippy::too_many_arguments)]
pub fn write(
    dimension: u32,
    nodes: u32,
    faces: u32,
    cells: u32,
    mantissas: &[i64],
    exponents: &[i32],
    face_rows: &[u32],
    cell_rows: &[u32],
    zones: &[u32],
    text: &mut [u8],
    answer: &mut [u64],
) -> u32 {
    // SAFETY: as in `read`.
    unsafe {
        ravneket_write(
            dimension,
            nodes,
            faces,
            cells,
            mantissas.as_ptr(),
            mantissas.len(),
            exponents.as_ptr(),
            exponents.len(),
            face_rows.as_ptr(),
            face_rows.len(),
            cell_rows.as_ptr(),
            cell_rows.len(),
            zones.as_ptr(),
            zones.len(),
            text.as_mut_ptr(),
            text.len(),
            answer.as_mut_ptr(),
            answer.len(),
        )
    }
}
