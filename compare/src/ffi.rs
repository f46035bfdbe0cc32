//! The library's side: the C ABI of include/honeygimlet.h behind safe wrappers.
//! Everything that depends on the header's details stands here and in abi.rs.

#![cfg(library)]

use crate::abi::*;
use crate::side::{Buffers, BuffersMut, Side};
use std::io::Write as _;
use std::process::{Command, Stdio};

#[rustfmt::skip]
extern "C" {
    fn hg_bus_pack(parts: Parts) -> Packed;
    fn hg_bus_unpack(id: u32) -> Unpacked;
    fn hg_bus_read_request(first: u8, second: u8, third: u8) -> RequestRead;
    fn hg_bus_request_bytes(request: Request) -> RequestBytes;
    fn hg_bus_first_state(family: u8) -> FirstState;
    fn hg_bus_serve(directory: Directory, state: HolderState, memory: *mut u8, memory_len: usize, flash: *mut u8, flash_len: usize, frame: Frame) -> HolderAnswer;

    fn hg_bridge_open_read(b: Bridge, first: *const u8, first_len: usize, second: *const u8, second_len: usize, device: u8, table: u8, offset: u16, count: usize) -> Opened;
    fn hg_bridge_open_write(b: Bridge, first: *mut u8, first_len: usize, second: *const u8, second_len: usize, device: u8, table: u8, offset: u16, bytes: *const u8, count: usize) -> Opened;
    fn hg_bridge_open_check(b: Bridge, first: *const u8, first_len: usize, second: *mut u8, second_len: usize, device: u8, table: u8, offset: u16, bytes: *const u8, count: usize) -> Opened;
    fn hg_bridge_turn(b: Bridge, first: *const u8, first_len: usize, second: *const u8, second_len: usize) -> Stepped;
    fn hg_bridge_frame(b: Bridge, first: *mut u8, first_len: usize, second: *const u8, second_len: usize, frame: Frame) -> Stepped;
    fn hg_bridge_status(b: Bridge, ticket: u32) -> u8;
    fn hg_bridge_span(b: Bridge, first: *const u8, first_len: usize, ticket: u32) -> Span;
    fn hg_bridge_close(b: Bridge, ticket: u32) -> Changed;
    fn hg_bridge_reset(b: Bridge, own: u8) -> Changed;
    fn hg_bridge_turn_in_place(b: *mut Bridge, first: *const u8, first_len: usize, second: *const u8, second_len: usize) -> Yielded;
    fn hg_bridge_frame_in_place(b: *mut Bridge, first: *mut u8, first_len: usize, second: *const u8, second_len: usize, frame: Frame) -> Yielded;
    fn hg_bridge_close_in_place(b: *mut Bridge, ticket: u32) -> u8;

    fn hg_mlg_read_header(file: *const u8, len: usize) -> MlgHeader;
    fn hg_mlg_read_block(file: *const u8, len: usize, size: u16, earlier: u64, place: usize) -> MlgBlock;
    fn hg_mlg_count_blocks(file: *const u8, len: usize) -> Tally;
    fn hg_mlg_fields_span(file: *const u8, len: usize) -> Span;
    fn hg_mlg_field_span(file: *const u8, len: usize, index: u16) -> Span;
    fn hg_mlg_names_span(file: *const u8, len: usize) -> Span;
    fn hg_mlg_info_span(file: *const u8, len: usize) -> Span;
    fn hg_mlg_write_header(out: *mut u8, len: usize, time: u32, fields: *const u8, fields_len: usize, names: *const u8, names_len: usize, info: *const u8, info_len: usize) -> Written;
    fn hg_mlg_write_data(out: *mut u8, len: usize, size: u16, earlier: u64, time: u16, record: *const u8, record_len: usize) -> Written;
    fn hg_mlg_write_mark(out: *mut u8, len: usize, earlier: u64, time: u16, text: *const u8, text_len: usize) -> Written;
    fn hg_mlg_raw_value(field: *const u8, field_len: usize, raw: *const u8, raw_len: usize) -> Raw;
    fn hg_mlg_shown_value(field: *const u8, field_len: usize, raw: *const u8, raw_len: usize) -> Shown;

    fn hg_frd_read_header(file: *const u8, len: usize) -> FrdHeader;
    fn hg_frd_read_block(file: *const u8, len: usize, size: u16, earlier: u64, place: usize) -> FrdBlock;
    fn hg_frd_count_blocks(file: *const u8, len: usize) -> Tally;
    fn hg_frd_read_signature(file: *const u8, len: usize) -> Span;
    fn hg_frd_write_header(out: *mut u8, len: usize, time: u32, signature: *const u8, signature_len: usize, size: u16) -> Written;
    fn hg_frd_write_data(out: *mut u8, len: usize, size: u16, earlier: u64, record: *const u8, record_len: usize) -> Written;
    fn hg_frd_write_time(out: *mut u8, len: usize, earlier: u64, time: u32) -> Written;

    fn hg_mlg_list(out: *mut u8, len: usize, file: *const u8, file_len: usize) -> Written;
}

/// Longer than the listing of any file of 65,536 bytes.
const LISTING: usize = 1 << 22;

/// `loglist` is the path of the listing program, where that is to be compared and not `hg_mlg_list`.
pub struct Library {
    pub loglist: Option<String>,
}

// SAFETY, for all: each pointer comes from a slice with its length, and lives for the call.
impl Side for Library {
    fn pack(&self, parts: Parts) -> Packed {
        unsafe { hg_bus_pack(parts) }
    }

    fn unpack(&self, id: u32) -> Unpacked {
        unsafe { hg_bus_unpack(id) }
    }

    fn read_request(&self, first: u8, second: u8, third: u8) -> RequestRead {
        unsafe { hg_bus_read_request(first, second, third) }
    }

    fn request_bytes(&self, request: Request) -> RequestBytes {
        unsafe { hg_bus_request_bytes(request) }
    }

    fn first_state(&self, family: u8) -> FirstState {
        unsafe { hg_bus_first_state(family) }
    }

    fn serve(
        &self, directory: Directory, state: HolderState, memory: &mut [u8], flash: &mut [u8], frame: Frame,
    ) -> HolderAnswer {
        let (one, one_len, other, other_len) = (memory.as_mut_ptr(), memory.len(), flash.as_mut_ptr(), flash.len());
        unsafe { hg_bus_serve(directory, state, one, one_len, other, other_len, frame) }
    }

    fn open_read(&self, b: Bridge, lent: Buffers, device: u8, table: u8, offset: u16, count: usize) -> Opened {
        let Buffers { first, second } = lent;
        let (one, other) = (first.as_ptr(), second.as_ptr());
        unsafe { hg_bridge_open_read(b, one, first.len(), other, second.len(), device, table, offset, count) }
    }

    fn open_write(&self, b: Bridge, lent: BuffersMut, device: u8, table: u8, offset: u16, bytes: &[u8]) -> Opened {
        let BuffersMut { first, second } = lent;
        let (one, one_len, other, other_len) = (first.as_mut_ptr(), first.len(), second.as_ptr(), second.len());
        let (given, count) = (bytes.as_ptr(), bytes.len());
        unsafe { hg_bridge_open_write(b, one, one_len, other, other_len, device, table, offset, given, count) }
    }

    fn open_check(&self, b: Bridge, lent: BuffersMut, device: u8, table: u8, offset: u16, bytes: &[u8]) -> Opened {
        let BuffersMut { first, second } = lent;
        let (one, one_len, other, other_len) = (first.as_ptr(), first.len(), second.as_mut_ptr(), second.len());
        let (given, count) = (bytes.as_ptr(), bytes.len());
        unsafe { hg_bridge_open_check(b, one, one_len, other, other_len, device, table, offset, given, count) }
    }

    fn turn(&self, b: Bridge, lent: Buffers) -> Stepped {
        let Buffers { first, second } = lent;
        unsafe { hg_bridge_turn(b, first.as_ptr(), first.len(), second.as_ptr(), second.len()) }
    }

    fn frame(&self, b: Bridge, lent: BuffersMut, frame: Frame) -> Stepped {
        let BuffersMut { first, second } = lent;
        unsafe { hg_bridge_frame(b, first.as_mut_ptr(), first.len(), second.as_ptr(), second.len(), frame) }
    }

    fn status(&self, b: Bridge, ticket: u32) -> u8 {
        unsafe { hg_bridge_status(b, ticket) }
    }

    fn span(&self, b: Bridge, first: &[u8], ticket: u32) -> Span {
        unsafe { hg_bridge_span(b, first.as_ptr(), first.len(), ticket) }
    }

    fn close(&self, b: Bridge, ticket: u32) -> Changed {
        unsafe { hg_bridge_close(b, ticket) }
    }

    fn reset(&self, b: Bridge, own: u8) -> Changed {
        unsafe { hg_bridge_reset(b, own) }
    }

    fn turn_in_place(&self, b: &mut Bridge, lent: Buffers) -> Yielded {
        let Buffers { first, second } = lent;
        unsafe { hg_bridge_turn_in_place(b, first.as_ptr(), first.len(), second.as_ptr(), second.len()) }
    }

    fn frame_in_place(&self, b: &mut Bridge, lent: BuffersMut, frame: Frame) -> Yielded {
        let BuffersMut { first, second } = lent;
        unsafe { hg_bridge_frame_in_place(b, first.as_mut_ptr(), first.len(), second.as_ptr(), second.len(), frame) }
    }

    fn close_in_place(&self, b: &mut Bridge, ticket: u32) -> u8 {
        unsafe { hg_bridge_close_in_place(b, ticket) }
    }

    fn mlg_read_header(&self, file: &[u8]) -> MlgHeader {
        unsafe { hg_mlg_read_header(file.as_ptr(), file.len()) }
    }

    fn mlg_read_block(&self, file: &[u8], size: u16, earlier: u64, place: usize) -> MlgBlock {
        unsafe { hg_mlg_read_block(file.as_ptr(), file.len(), size, earlier, place) }
    }

    fn mlg_count_blocks(&self, file: &[u8]) -> Tally {
        unsafe { hg_mlg_count_blocks(file.as_ptr(), file.len()) }
    }

    fn mlg_fields_span(&self, file: &[u8]) -> Span {
        unsafe { hg_mlg_fields_span(file.as_ptr(), file.len()) }
    }

    fn mlg_field_span(&self, file: &[u8], index: u16) -> Span {
        unsafe { hg_mlg_field_span(file.as_ptr(), file.len(), index) }
    }

    fn mlg_names_span(&self, file: &[u8]) -> Span {
        unsafe { hg_mlg_names_span(file.as_ptr(), file.len()) }
    }

    fn mlg_info_span(&self, file: &[u8]) -> Span {
        unsafe { hg_mlg_info_span(file.as_ptr(), file.len()) }
    }

    fn mlg_write_header(&self, out: &mut [u8], time: u32, fields: &[u8], names: &[u8], info: &[u8]) -> Written {
        let (start, len) = (out.as_mut_ptr(), out.len());
        let (f, n, i) = (fields.as_ptr(), names.as_ptr(), info.as_ptr());
        unsafe { hg_mlg_write_header(start, len, time, f, fields.len(), n, names.len(), i, info.len()) }
    }

    fn mlg_write_data(&self, out: &mut [u8], size: u16, earlier: u64, time: u16, record: &[u8]) -> Written {
        let (start, len) = (out.as_mut_ptr(), out.len());
        unsafe { hg_mlg_write_data(start, len, size, earlier, time, record.as_ptr(), record.len()) }
    }

    fn mlg_write_mark(&self, out: &mut [u8], earlier: u64, time: u16, text: &[u8]) -> Written {
        let (start, len) = (out.as_mut_ptr(), out.len());
        unsafe { hg_mlg_write_mark(start, len, earlier, time, text.as_ptr(), text.len()) }
    }

    fn raw_value(&self, field: &[u8], raw: &[u8]) -> Raw {
        unsafe { hg_mlg_raw_value(field.as_ptr(), field.len(), raw.as_ptr(), raw.len()) }
    }

    fn shown_value(&self, field: &[u8], raw: &[u8]) -> Shown {
        unsafe { hg_mlg_shown_value(field.as_ptr(), field.len(), raw.as_ptr(), raw.len()) }
    }

    fn frd_read_header(&self, file: &[u8]) -> FrdHeader {
        unsafe { hg_frd_read_header(file.as_ptr(), file.len()) }
    }

    fn frd_read_block(&self, file: &[u8], size: u16, earlier: u64, place: usize) -> FrdBlock {
        unsafe { hg_frd_read_block(file.as_ptr(), file.len(), size, earlier, place) }
    }

    fn frd_count_blocks(&self, file: &[u8]) -> Tally {
        unsafe { hg_frd_count_blocks(file.as_ptr(), file.len()) }
    }

    fn frd_read_signature(&self, file: &[u8]) -> Span {
        unsafe { hg_frd_read_signature(file.as_ptr(), file.len()) }
    }

    fn frd_write_header(&self, out: &mut [u8], time: u32, signature: &[u8], size: u16) -> Written {
        let (start, len) = (out.as_mut_ptr(), out.len());
        unsafe { hg_frd_write_header(start, len, time, signature.as_ptr(), signature.len(), size) }
    }

    fn frd_write_data(&self, out: &mut [u8], size: u16, earlier: u64, record: &[u8]) -> Written {
        let (start, len) = (out.as_mut_ptr(), out.len());
        unsafe { hg_frd_write_data(start, len, size, earlier, record.as_ptr(), record.len()) }
    }

    fn frd_write_time(&self, out: &mut [u8], earlier: u64, time: u32) -> Written {
        unsafe { hg_frd_write_time(out.as_mut_ptr(), out.len(), earlier, time) }
    }

    /// What the listing program writes on the file, or `hg_mlg_list` where there is no program.
    fn listing(&self, file: &[u8]) -> Option<Vec<u8>> {
        let Some(program) = self.loglist.as_ref() else {
            let mut out = vec![0; LISTING];
            let written = unsafe { hg_mlg_list(out.as_mut_ptr(), out.len(), file.as_ptr(), file.len()) };
            assert_eq!(written.number, 0, "hg_mlg_list");
            out.truncate(written.len);
            return Some(out);
        };
        let mut child = Command::new(program)
            .stdin(Stdio::piped())
            .stdout(Stdio::piped())
            .spawn()
            .unwrap_or_else(|error| panic!("{program}: {error}"));
        let mut input = child.stdin.take().unwrap();
        let bytes = file.to_vec();
        // the program may stop reading early, so a failing write is no fault here
        let writer = std::thread::spawn(move || drop(input.write_all(&bytes)));
        let output = child.wait_with_output().expect("output of the listing program");
        writer.join().unwrap();
        Some(output.stdout)
    }
}
