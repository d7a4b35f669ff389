//! The proved functions, each behind a safe wrapper. A slice passes as a
//! pointer and a length in elements. No proved function has a condition on
//! its input, so the wrappers test nothing; that the declarations fit the
//! proved sources is not checked by any tool.

#[cfg(feature = "exports")]
mod exports {
    extern "C" {
        fn utf8_check(text: *const u8, text_len: usize) -> u64;
        fn duration_parse(run: *const u8, run_len: usize, value: *mut i64) -> u8;
    }

    /// The offset of the first byte of the first ill-formed sequence, or the
    /// length of a well-formed text.
    pub fn check_utf8(text: &[u8]) -> u64 {
        // SAFETY: the function reads the slice's bytes and nothing else.
        unsafe { utf8_check(text.as_ptr(), text.len()) }
    }

    /// 0 with the nanoseconds in `value`, or 1 with `value` as it was.
    pub fn parse_duration(run: &[u8], value: &mut [i64; 1]) -> u8 {
        // SAFETY: the function reads the slice and writes at most one number.
        unsafe { duration_parse(run.as_ptr(), run.len(), value.as_mut_ptr()) }
    }
}

#[cfg(feature = "pxf")]
mod pxf {
    use crate::records::Lent;
    use crate::token::Position;

    extern "C" {
        fn pxf_read_text(
            text: *const u8,
            text_len: usize,
            mode: u8,
            limit: u64,
            tokens: *mut i64,
            tokens_len: usize,
            strings: *mut u8,
            strings_len: usize,
            reports: *mut i64,
            reports_len: usize,
            answer: *mut i64,
        ) -> u8;
        fn pxf_read_token(
            text: *const u8,
            text_len: usize,
            offset: u64,
            line: u64,
            column: u64,
            mode: u8,
            limit: u64,
            tokens: *mut i64,
            tokens_len: usize,
            strings: *mut u8,
            strings_len: usize,
            reports: *mut i64,
            reports_len: usize,
            answer: *mut i64,
        ) -> u8;
        fn pxf_place_of(text: *const u8, text_len: usize, offset: u64, answer: *mut i64) -> u8;
        fn pxf_write_token_file(
            records: *const i64,
            records_len: usize,
            count: u64,
            out: *mut u8,
            out_len: usize,
            answer: *mut i64,
        ) -> u8;
        fn pxf_read_token_file(
            file: *const u8,
            file_len: usize,
            tokens: *mut i64,
            tokens_len: usize,
            answer: *mut i64,
        ) -> u8;
        fn pxf_timestamp(run: *const u8, run_len: usize, answer: *mut i64) -> u8;
        fn pxf_suggest_durations(
            run: *const u8,
            run_len: usize,
            list: *mut i64,
            list_len: usize,
            answer: *mut i64,
        ) -> u8;
        fn pxf_byte_kind(byte: u8) -> u8;
    }

    /// The buffers that a call on a text is lent.
    #[derive(Debug, Clone, PartialEq, Eq)]
    pub struct Buffers {
        pub tokens: Vec<i64>,
        pub strings: Vec<u8>,
        pub reports: Vec<i64>,
    }

    impl Buffers {
        /// What every number and every byte is before a call. 0xFF is never a
        /// byte of UTF-8, so no string has it.
        pub const UNTOUCHED: i64 = -0x0123_4567_89AB_CDEF;
        pub const UNTOUCHED_BYTE: u8 = 0xFF;

        pub fn untouched(lent: Lent) -> Buffers {
            Buffers {
                tokens: vec![Buffers::UNTOUCHED; lent.tokens],
                strings: vec![Buffers::UNTOUCHED_BYTE; lent.strings],
                reports: vec![Buffers::UNTOUCHED; lent.reports],
            }
        }
    }

    /// 0 or the refusal's number; `answer` gets the counts of tokens, string
    /// bytes and reports, or the offset of refusal 2.
    pub fn read_text(
        text: &[u8],
        mode: u8,
        limit: u64,
        buffers: &mut Buffers,
        answer: &mut [i64; 6],
    ) -> u8 {
        // SAFETY: the function reads `text`, and writes within the three
        // buffers and the six numbers of `answer`.
        unsafe {
            pxf_read_text(
                text.as_ptr(),
                text.len(),
                mode,
                limit,
                buffers.tokens.as_mut_ptr(),
                buffers.tokens.len(),
                buffers.strings.as_mut_ptr(),
                buffers.strings.len(),
                buffers.reports.as_mut_ptr(),
                buffers.reports.len(),
                answer.as_mut_ptr(),
            )
        }
    }

    /// As `read_text` for one token from `place`; `answer` gets offset, line
    /// and column of the token's end too.
    pub fn read_token(
        text: &[u8],
        place: Position,
        mode: u8,
        limit: u64,
        buffers: &mut Buffers,
        answer: &mut [i64; 6],
    ) -> u8 {
        // SAFETY: as for `read_text`.
        unsafe {
            pxf_read_token(
                text.as_ptr(),
                text.len(),
                place.offset as u64,
                place.line as u64,
                place.column as u64,
                mode,
                limit,
                buffers.tokens.as_mut_ptr(),
                buffers.tokens.len(),
                buffers.strings.as_mut_ptr(),
                buffers.strings.len(),
                buffers.reports.as_mut_ptr(),
                buffers.reports.len(),
                answer.as_mut_ptr(),
            )
        }
    }

    /// 0 or the refusal's number; `answer` gets offset, line and column.
    pub fn place_of(text: &[u8], offset: usize, answer: &mut [i64; 6]) -> u8 {
        // SAFETY: the function reads `text`, and writes the six numbers.
        unsafe {
            pxf_place_of(
                text.as_ptr(),
                text.len(),
                offset as u64,
                answer.as_mut_ptr(),
            )
        }
    }

    /// 0; `answer` gets 1, the seconds and the nanoseconds of a date, or
    /// zeros.
    pub fn timestamp(run: &[u8], answer: &mut [i64; 6]) -> u8 {
        // SAFETY: the function reads `run`, and writes the six numbers.
        unsafe { pxf_timestamp(run.as_ptr(), run.len(), answer.as_mut_ptr()) }
    }

    /// 0 or the refusal's number; `answer` gets the count of entries.
    pub fn suggest_durations(run: &[u8], list: &mut [i64], answer: &mut [i64; 6]) -> u8 {
        // SAFETY: the function reads `run`, and writes within `list` and the
        // six numbers of `answer`.
        unsafe {
            pxf_suggest_durations(
                run.as_ptr(),
                run.len(),
                list.as_mut_ptr(),
                list.len(),
                answer.as_mut_ptr(),
            )
        }
    }

    /// The byte's entry in the table of byte kinds.
    pub fn byte_kind(byte: u8) -> u8 {
        // SAFETY: the function is given a number and no pointer.
        unsafe { pxf_byte_kind(byte) }
    }

    /// 0 or the refusal's number; `answer` gets the bytes written.
    pub fn write_token_file(
        records: &[i64],
        count: u64,
        out: &mut [u8],
        answer: &mut [i64; 6],
    ) -> u8 {
        // SAFETY: the function reads `records`, and writes within `out` and
        // the six numbers of `answer`.
        unsafe {
            pxf_write_token_file(
                records.as_ptr(),
                records.len(),
                count,
                out.as_mut_ptr(),
                out.len(),
                answer.as_mut_ptr(),
            )
        }
    }

    /// 0 or the refusal's number; `answer` gets the count of tokens.
    pub fn read_token_file(file: &[u8], tokens: &mut [i64], answer: &mut [i64; 6]) -> u8 {
        // SAFETY: the function reads `file`, and writes within `tokens` and
        // the six numbers of `answer`.
        unsafe {
            pxf_read_token_file(
                file.as_ptr(),
                file.len(),
                tokens.as_mut_ptr(),
                tokens.len(),
                answer.as_mut_ptr(),
            )
        }
    }
}

#[cfg(feature = "exports")]
pub use exports::*;
#[cfg(feature = "pxf")]
pub use pxf::*;
