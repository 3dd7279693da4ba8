//! Follows the steps of a call on a reader.

use super::plan::Steps;
use super::reader::{indices, OffBoard, Reader, HUGE};
use crate::state::{State, BITMAP_WORDS};
use calls::{PAGE, TEMPORARY};

pub struct Foresight {
    pub off_board: bool,
    pub free_table: bool,
    pub bad_copy: bool,
    pub bitmap: [u64; BITMAP_WORDS],
    pub turned_away: Option<u32>,
}

pub fn foresee(state: &State, steps: &Steps) -> Foresight {
    let mut reader = Reader::new(state);
    let end = follow(&mut reader, steps);
    Foresight {
        off_board: end.is_err(),
        free_table: reader.free_table,
        bad_copy: reader.bad_copy,
        bitmap: reader.bitmap,
        turned_away: reader.turned_away,
    }
}

fn follow(reader: &mut Reader, steps: &Steps) -> Result<(), OffBoard> {
    match *steps {
        Steps::None => Ok(()),
        Steps::Back { start, pages, clean_up } => back(reader, start, pages, clean_up),
        Steps::Release { start, pages } => release(reader, start, pages),
        Steps::Demand { page } => match reader.take() {
            Some(frame) => reader.map(page, frame * PAGE, 0, 3).map(drop),
            None => Ok(()),
        },
        Steps::Copy { page } => copy(reader, page),
        Steps::Overwrite { page } => overwrite(reader, page),
        Steps::Map { virt, phys } => reader.map(virt, phys, 0, 3).map(drop),
        Steps::MapHuge { virt, phys, depth } => reader.map(virt, phys, HUGE, depth).map(drop),
        Steps::Unmap { virt } => reader.unmap(virt).map(drop),
        Steps::Translate { addr } => reader.translate(addr).map(drop),
        Steps::Take => {
            reader.take();
            Ok(())
        }
        Steps::Free { frame } => {
            reader.free(frame);
            Ok(())
        }
        Steps::Mark { frame } => {
            reader.mark(frame);
            Ok(())
        }
    }
}

fn page(start: u64, i: u64) -> u64 {
    start.wrapping_add(i.wrapping_mul(PAGE))
}

fn back(reader: &mut Reader, start: u64, pages: u64, clean_up: bool) -> Result<(), OffBoard> {
    for i in 0..pages {
        let frame = match reader.take() {
            Some(frame) => frame,
            None => {
                reader.turned_away = Some(11);
                break;
            }
        };
        reader.zero(frame);
        if !reader.map(page(start, i), frame * PAGE, 0, 3)? {
            reader.turned_away = Some(13);
            for j in 0..if clean_up { i } else { 0 } {
                reader.unmap(page(start, j))?;
            }
            break;
        }
    }
    Ok(())
}

fn release(reader: &mut Reader, start: u64, pages: u64) -> Result<(), OffBoard> {
    for i in 0..pages {
        if let Some(frame) = reader.unmap(page(start, i))? {
            reader.free(frame);
        }
    }
    Ok(())
}

fn overwrite(reader: &mut Reader, page: u64) -> Result<(), OffBoard> {
    if let Some(frame) = reader.take() {
        if reader.overwrite(page, frame * PAGE)? {
            reader.zero(frame);
        }
    }
    Ok(())
}

/// The page is judged if it comes to be copied at all: not without a frame for it, nor
/// where the temporary page cannot be mapped.
fn copy(reader: &mut Reader, page: u64) -> Result<(), OffBoard> {
    let frame = match reader.take() {
        Some(frame) => frame,
        None => return Ok(()),
    };
    if reader.translate(TEMPORARY)?.is_some() {
        reader.unmap(TEMPORARY)?;
    }
    if !reader.map(TEMPORARY, frame * PAGE, 0, 3)? {
        return Ok(());
    }
    let source = reader.translate(page)?.map(|phys| phys / PAGE);
    let marked = source.map_or(false, |source| reader.state.is_marked(source));
    reader.bad_copy = !marked || indices(page) == indices(TEMPORARY);
    let index = match source.and_then(|source| reader.state.lent(source)) {
        Some(index) => index,
        None => return Ok(()),
    };
    reader.copy(index, frame);
    reader.unmap(TEMPORARY)?;
    if let Some(old) = reader.unmap(page)? {
        reader.free(old);
    }
    reader.map(page, frame * PAGE, 0, 3).map(drop)
}
