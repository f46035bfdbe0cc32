//! The calls of the C ABI as a trait, and the model's side of it.

use crate::abi::*;
pub use crate::model::bridge::Buffers;
use crate::model::holder::Memories;
use crate::model::{bridge, frd, holder, identifier, listing, mlg, request, value, Number};

/// The two lent buffers, to be changed.
pub struct BuffersMut<'a> {
    pub first: &'a mut [u8],
    pub second: &'a mut [u8],
}

impl BuffersMut<'_> {
    pub fn get(&self) -> Buffers<'_> {
        Buffers { first: self.first, second: self.second }
    }
}

/// One of the two sides that are compared.
#[allow(clippy::too_many_arguments)]
pub trait Side {
    fn pack(&self, parts: Parts) -> Packed;
    fn unpack(&self, id: u32) -> Unpacked;
    fn read_request(&self, first: u8, second: u8, third: u8) -> RequestRead;
    fn request_bytes(&self, request: Request) -> RequestBytes;
    fn first_state(&self, family: u8) -> FirstState;
    fn serve(
        &self, directory: Directory, state: HolderState, memory: &mut [u8], flash: &mut [u8], frame: Frame,
    ) -> HolderAnswer;

    // a call that changes one of the two buffers gets both to write, so that a side that changes the other can be tried
    fn open_read(&self, b: Bridge, lent: Buffers, device: u8, table: u8, offset: u16, count: usize) -> Opened;
    fn open_write(&self, b: Bridge, lent: BuffersMut, device: u8, table: u8, offset: u16, bytes: &[u8]) -> Opened;
    fn open_check(&self, b: Bridge, lent: BuffersMut, device: u8, table: u8, offset: u16, bytes: &[u8]) -> Opened;
    fn turn(&self, b: Bridge, lent: Buffers) -> Stepped;
    fn frame(&self, b: Bridge, lent: BuffersMut, frame: Frame) -> Stepped;
    fn status(&self, b: Bridge, ticket: u32) -> u8;
    fn span(&self, b: Bridge, first: &[u8], ticket: u32) -> Span;
    fn close(&self, b: Bridge, ticket: u32) -> Changed;
    fn reset(&self, b: Bridge, own: u8) -> Changed;
    fn turn_in_place(&self, b: &mut Bridge, lent: Buffers) -> Yielded;
    fn frame_in_place(&self, b: &mut Bridge, lent: BuffersMut, frame: Frame) -> Yielded;
    fn close_in_place(&self, b: &mut Bridge, ticket: u32) -> u8;

    fn mlg_read_header(&self, file: &[u8]) -> MlgHeader;
    fn mlg_read_block(&self, file: &[u8], size: u16, earlier: u64, place: usize) -> MlgBlock;
    fn mlg_count_blocks(&self, file: &[u8]) -> Tally;
    fn mlg_fields_span(&self, file: &[u8]) -> Span;
    fn mlg_field_span(&self, file: &[u8], index: u16) -> Span;
    fn mlg_names_span(&self, file: &[u8]) -> Span;
    fn mlg_info_span(&self, file: &[u8]) -> Span;
    fn mlg_write_header(&self, out: &mut [u8], time: u32, fields: &[u8], names: &[u8], info: &[u8]) -> Written;
    fn mlg_write_data(&self, out: &mut [u8], size: u16, earlier: u64, time: u16, record: &[u8]) -> Written;
    fn mlg_write_mark(&self, out: &mut [u8], earlier: u64, time: u16, text: &[u8]) -> Written;
    fn raw_value(&self, field: &[u8], raw: &[u8]) -> Raw;
    fn shown_value(&self, field: &[u8], raw: &[u8]) -> Shown;

    fn frd_read_header(&self, file: &[u8]) -> FrdHeader;
    fn frd_read_block(&self, file: &[u8], size: u16, earlier: u64, place: usize) -> FrdBlock;
    fn frd_count_blocks(&self, file: &[u8]) -> Tally;
    fn frd_read_signature(&self, file: &[u8]) -> Span;
    fn frd_write_header(&self, out: &mut [u8], time: u32, signature: &[u8], size: u16) -> Written;
    fn frd_write_data(&self, out: &mut [u8], size: u16, earlier: u64, record: &[u8]) -> Written;
    fn frd_write_time(&self, out: &mut [u8], earlier: u64, time: u32) -> Written;

    /// What `loglist` prints, or nothing if this side has no listing.
    fn listing(&self, file: &[u8]) -> Option<Vec<u8>>;
}

pub struct Model;

fn served(answer: Result<Option<holder::Answer>, Number>) -> Served {
    match answer {
        Ok(Some((frame, clear))) => Served { number: 0, frames: 1, clear: clear as u8, frame },
        Ok(None) => Served::default(),
        Err(number) => Served { number, ..Served::default() },
    }
}

fn yielded(answer: Result<Option<Frame>, Number>) -> Yielded {
    match answer {
        Ok(Some(frame)) => Yielded { number: 0, frames: 1, frame },
        Ok(None) => Yielded::default(),
        Err(number) => Yielded { number, ..Yielded::default() },
    }
}

/// A refused opening hands back the bridge that it was given.
fn opened(given: Bridge, answer: Result<(Bridge, u32), Number>) -> Opened {
    match answer {
        Ok((bridge, ticket)) => Opened { bridge, ticket, number: 0 },
        Err(number) => Opened { bridge: given, ticket: 0, number },
    }
}

/// An opening that copies its bytes into a buffer.
fn copied(given: Bridge, answer: Result<(Bridge, Vec<u8>, u32), Number>, buffer: &mut [u8]) -> Opened {
    let answer = answer.map(|(bridge, filled, ticket)| {
        buffer.copy_from_slice(&filled);
        (bridge, ticket)
    });
    opened(given, answer)
}

/// A part of a buffer or of a file, as start and length.
fn span_of(part: Result<(usize, usize), Number>) -> Span {
    match part {
        Ok((start, len)) => Span { number: 0, start, len },
        Err(number) => Span { number, start: 0, len: 0 },
    }
}

/// A writer hands back the length written and leaves the rest of its output as found.
fn written(out: &mut [u8], bytes: Result<Vec<u8>, Number>) -> Written {
    match bytes {
        Ok(bytes) => {
            out[..bytes.len()].copy_from_slice(&bytes);
            Written { len: bytes.len(), number: 0 }
        }
        Err(number) => Written { len: 0, number },
    }
}

impl Side for Model {
    fn pack(&self, parts: Parts) -> Packed {
        match identifier::pack(parts) {
            Ok(id) => Packed { id, number: 0 },
            Err(number) => Packed { id: 0, number },
        }
    }

    fn unpack(&self, id: u32) -> Unpacked {
        match identifier::unpack(id) {
            Ok(parts) => Unpacked { parts, number: 0 },
            Err(number) => Unpacked { parts: Parts::default(), number },
        }
    }

    fn read_request(&self, first: u8, second: u8, third: u8) -> RequestRead {
        let (request, clear) = request::read(first, second, third);
        RequestRead { request, clear: clear as u8 }
    }

    fn request_bytes(&self, request: Request) -> RequestBytes {
        match request::bytes_of(request) {
            Ok(bytes) => RequestBytes { number: 0, bytes },
            Err(number) => RequestBytes { number, bytes: [0; 3] },
        }
    }

    fn first_state(&self, family: u8) -> FirstState {
        match holder::first_state(family) {
            Ok(state) => FirstState { number: 0, state },
            Err(number) => FirstState { number, state: HolderState::default() },
        }
    }

    /// A refusal hands back the state that it was given.
    fn serve(
        &self, directory: Directory, state: HolderState, memory: &mut [u8], flash: &mut [u8], frame: Frame,
    ) -> HolderAnswer {
        let lent = Memories { working: memory.to_vec(), flash: flash.to_vec() };
        match holder::serve(&directory, &state, &lent, &frame) {
            Ok(left) => {
                memory.copy_from_slice(&left.lent.working);
                flash.copy_from_slice(&left.lent.flash);
                HolderAnswer { served: served(Ok(left.answer)), state: left.state }
            }
            Err(number) => HolderAnswer { served: served(Err(number)), state },
        }
    }

    fn open_read(&self, b: Bridge, lent: Buffers, device: u8, table: u8, offset: u16, count: usize) -> Opened {
        opened(b, bridge::open_read(&b, lent, device, table, offset, count))
    }

    fn open_write(&self, b: Bridge, lent: BuffersMut, device: u8, table: u8, offset: u16, bytes: &[u8]) -> Opened {
        let answer = bridge::open_write(&b, lent.get(), device, table, offset, bytes);
        copied(b, answer, lent.first)
    }

    fn open_check(&self, b: Bridge, lent: BuffersMut, device: u8, table: u8, offset: u16, bytes: &[u8]) -> Opened {
        let answer = bridge::open_check(&b, lent.get(), device, table, offset, bytes);
        copied(b, answer, lent.second)
    }

    fn turn(&self, b: Bridge, lent: Buffers) -> Stepped {
        match bridge::turn(&b, lent) {
            Ok((bridge, frame)) => Stepped { bridge, answer: yielded(Ok(frame)) },
            Err(number) => Stepped { bridge: b, answer: yielded(Err(number)) },
        }
    }

    fn frame(&self, b: Bridge, lent: BuffersMut, frame: Frame) -> Stepped {
        match bridge::frame(&b, lent.get(), &frame) {
            Ok((bridge, first)) => {
                lent.first.copy_from_slice(&first);
                Stepped { bridge, answer: yielded(Ok(None)) }
            }
            Err(number) => Stepped { bridge: b, answer: yielded(Err(number)) },
        }
    }

    fn status(&self, b: Bridge, ticket: u32) -> u8 {
        bridge::status(&b, ticket).err().unwrap_or(0)
    }

    fn span(&self, b: Bridge, first: &[u8], ticket: u32) -> Span {
        span_of(bridge::bytes(&b, first, ticket))
    }

    fn close(&self, b: Bridge, ticket: u32) -> Changed {
        match bridge::close(&b, ticket) {
            Ok(bridge) => Changed { bridge, number: 0 },
            Err(number) => Changed { bridge: b, number },
        }
    }

    fn reset(&self, b: Bridge, own: u8) -> Changed {
        match bridge::reset(own) {
            Ok(bridge) => Changed { bridge, number: 0 },
            Err(number) => Changed { bridge: b, number },
        }
    }

    /// Thin calls, made after the calls by value.
    fn turn_in_place(&self, b: &mut Bridge, lent: Buffers) -> Yielded {
        let stepped = self.turn(*b, lent);
        *b = stepped.bridge;
        stepped.answer
    }

    fn frame_in_place(&self, b: &mut Bridge, lent: BuffersMut, frame: Frame) -> Yielded {
        let stepped = self.frame(*b, lent, frame);
        *b = stepped.bridge;
        stepped.answer
    }

    fn close_in_place(&self, b: &mut Bridge, ticket: u32) -> u8 {
        let changed = self.close(*b, ticket);
        *b = changed.bridge;
        changed.number
    }

    fn mlg_read_header(&self, file: &[u8]) -> MlgHeader {
        match mlg::read_header(file) {
            Ok(mlg::Header { time, info, begin, size, count, version }) => {
                MlgHeader { time, info, begin, size, count, version, number: 0 }
            }
            Err(number) => MlgHeader { number, ..MlgHeader::default() },
        }
    }

    fn mlg_read_block(&self, file: &[u8], size: u16, earlier: u64, place: usize) -> MlgBlock {
        let block = |kind, counter, as_expected: bool, time, start, len| MlgBlock {
            place: 0,
            start,
            len,
            time,
            number: 0,
            kind,
            counter,
            as_expected: as_expected as u8,
        };
        match mlg::read_block(file, size, earlier, place) {
            Ok(mlg::Block::Data { counter, as_expected, time, start, count }) => {
                block(BLOCK_DATA, counter, as_expected, time, start, count)
            }
            Ok(mlg::Block::Mark { counter, as_expected, time, start, count }) => {
                block(BLOCK_MARK, counter, as_expected, time, start, count)
            }
            Ok(mlg::Block::End) => MlgBlock { kind: BLOCK_END, ..MlgBlock::default() },
            Err(number) => MlgBlock { place, number, kind: BLOCK_REFUSED, ..MlgBlock::default() },
        }
    }

    fn mlg_count_blocks(&self, file: &[u8]) -> Tally {
        let (blocks, ending, place) = mlg::count_blocks(file);
        Tally { blocks, ending, place }
    }

    fn mlg_fields_span(&self, file: &[u8]) -> Span {
        span_of(mlg::fields_span(file))
    }

    fn mlg_field_span(&self, file: &[u8], index: u16) -> Span {
        span_of(mlg::field_span(file, index))
    }

    fn mlg_names_span(&self, file: &[u8]) -> Span {
        span_of(mlg::names_span(file))
    }

    fn mlg_info_span(&self, file: &[u8]) -> Span {
        span_of(mlg::info_span(file))
    }

    fn mlg_write_header(&self, out: &mut [u8], time: u32, fields: &[u8], names: &[u8], info: &[u8]) -> Written {
        let bytes = mlg::write_header(out.len(), time, fields, names, info);
        written(out, bytes)
    }

    fn mlg_write_data(&self, out: &mut [u8], size: u16, earlier: u64, time: u16, record: &[u8]) -> Written {
        let bytes = mlg::write_data(out.len(), size, earlier, time, record);
        written(out, bytes)
    }

    fn mlg_write_mark(&self, out: &mut [u8], earlier: u64, time: u16, text: &[u8]) -> Written {
        let bytes = mlg::write_mark(out.len(), earlier, time, text);
        written(out, bytes)
    }

    fn raw_value(&self, field: &[u8], raw: &[u8]) -> Raw {
        match value::raw_value(field, raw) {
            Ok(value) => Raw { value, number: 0 },
            Err(number) => Raw { value: 0, number },
        }
    }

    fn shown_value(&self, field: &[u8], raw: &[u8]) -> Shown {
        match value::shown_value(field, raw) {
            Ok(value) => Shown { value, number: 0 },
            Err(number) => Shown { value: 0.0, number },
        }
    }

    fn frd_read_header(&self, file: &[u8]) -> FrdHeader {
        match frd::read_header(file) {
            Ok(frd::Header { time, size }) => FrdHeader { time, size, number: 0 },
            Err(number) => FrdHeader { number, ..FrdHeader::default() },
        }
    }

    fn frd_read_block(&self, file: &[u8], size: u16, earlier: u64, place: usize) -> FrdBlock {
        let none = FrdBlock::default();
        match frd::read_block(file, size, earlier, place) {
            Ok(frd::Block::Data { counter, as_expected, start, count }) => {
                FrdBlock { kind: BLOCK_DATA, counter, as_expected: as_expected as u8, start, len: count, ..none }
            }
            Ok(frd::Block::Time { counter, as_expected, time }) => {
                FrdBlock { kind: BLOCK_TIME, counter, as_expected: as_expected as u8, time, ..none }
            }
            Ok(frd::Block::End) => FrdBlock { kind: BLOCK_END, ..none },
            Err(number) => FrdBlock { place, number, kind: BLOCK_REFUSED, ..none },
        }
    }

    fn frd_count_blocks(&self, file: &[u8]) -> Tally {
        let (blocks, ending, place) = frd::count_blocks(file);
        Tally { blocks, ending, place }
    }

    fn frd_read_signature(&self, file: &[u8]) -> Span {
        span_of(frd::read_signature(file))
    }

    fn frd_write_header(&self, out: &mut [u8], time: u32, signature: &[u8], size: u16) -> Written {
        let bytes = frd::write_header(out.len(), time, signature, size);
        written(out, bytes)
    }

    fn frd_write_data(&self, out: &mut [u8], size: u16, earlier: u64, record: &[u8]) -> Written {
        let bytes = frd::write_data(out.len(), size, earlier, record);
        written(out, bytes)
    }

    fn frd_write_time(&self, out: &mut [u8], earlier: u64, time: u32) -> Written {
        let bytes = frd::write_time(out.len(), earlier, time);
        written(out, bytes)
    }

    fn listing(&self, file: &[u8]) -> Option<Vec<u8>> {
        Some(listing::listing(file).into_bytes())
    }
}
