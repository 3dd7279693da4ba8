//! The three sides of a row: the port's C functions, the original Rust, and `same`. A row's calls are
//! written once, over `Side`. The Rust has boards of four levels alone.

use crate::same;
use gadulnos::raw::{self, Found, Frames, Line, Marked, Parts, LEVELS, SHOWN_NUMBERS};
use rinux::paging::{HugePageSize, PageMapper, PhysAddr, VirtAddr};
use rinux::{frame, mmap, oracle, page_fault, page_handler, vmalloc};
use std::hint::black_box;
use trial::state::Region;

/// The calls, and below them what is set between rounds. A met call has its value, 0 if it has none.
pub trait Side {
    fn start(&mut self, from: u64, to: u64) -> Option<u64>;
    fn allocate_frame(&mut self) -> Option<u64>;
    fn deallocate_frame(&mut self, frame: u64) -> Option<u64>;
    fn mark_allocated(&mut self, frame: u64) -> Option<u64>;
    fn allocated_frames(&self) -> Option<u64>;
    fn translate(&self, virt: u64) -> Option<u64>;
    fn show_translate(&mut self, virt: u64) -> Option<u64>;
    fn user_may(&self, virt: u64, write: bool) -> Option<u64>;
    fn map_page(&mut self, virt: u64, phys: u64) -> Option<u64>;
    fn map_huge_page(&mut self, virt: u64, phys: u64, gigabyte: bool) -> Option<u64>;
    fn unmap_page(&mut self, virt: u64) -> Option<u64>;
    fn vmalloc(&mut self, size: u64) -> Option<u64>;
    fn vfree(&mut self, addr: u64) -> Option<u64>;
    fn mmap(&mut self, size: u64) -> Option<u64>;
    fn munmap(&mut self, addr: u64, size: u64) -> Option<u64>;
    fn mprotect(&mut self, addr: u64, size: u64, prot: i32) -> Option<u64>;
    fn find_free_region(&self, size: u64) -> Option<u64>;
    fn mark_cow(&mut self, addr: u64) -> Option<u64>;
    fn unmark_cow(&mut self, addr: u64) -> Option<u64>;
    fn is_cow(&self, addr: u64) -> Option<u64>;
    fn fault(&mut self, addr: u64, code: u64) -> Option<u64>;
    fn second_fault(&mut self, addr: u64, code: u64) -> Option<u64>;

    /// Marks the lowest frames, so many, and no other.
    fn set_frames(&mut self, marked: u64);
    /// Sets next_addr; the regions stay.
    fn set_next_addr(&mut self, next_addr: u64);
    /// Marks these pages copy-on-write, and no other.
    fn set_marked(&mut self, pages: &[u64]);
    fn words_mut(&mut self) -> &mut [u64];
}

/// The bitmap with the lowest frames marked.
fn lowest(marked: u64) -> [u64; 128] {
    let mut bitmap = [0; 128];
    (0..marked as usize).for_each(|i| bitmap[i / 64] |= 1 << (i % 64));
    bitmap
}

/// A line's value, if the call was met.
fn met(line: Line) -> Option<u64> {
    (line.number == 0).then_some(line.value)
}

/// A met call that gave frames back has no value; what it found is not passed over.
fn gave(found: Found) -> Option<u64> {
    met(black_box(found).line())
}

/// What a translation's working is written to, in the middle of a page: the words' tables begin near the
/// front of pages, and a load waits where a store before it has the same low bits of the address.
#[repr(C, align(4096))]
pub struct Shown {
    _front: [u64; 256],
    pub numbers: [u64; SHOWN_NUMBERS],
}

/// A side on packed parts, whose functions stand in a module by the names of `gadulnos::raw`.
macro_rules! packed_side {
    ($name:ident, $calls:ident) => {
        pub struct $name {
            pub board: Parts,
            /// The lent frames and the levels, as a host knows them.
            start: u64,
            total: u64,
            levels: u64,
            /// The working of the translation that was shown last.
            pub shown: Box<Shown>,
        }

        impl $name {
            pub fn lend(start: u64, total: u64, levels: u64) -> $name {
                let shown = Box::new(Shown { _front: [0; 256], numbers: [0; SHOWN_NUMBERS] });
                $name { board: Parts::lend(total as usize), start, total, levels, shown }
            }
        }

        impl Side for $name {
            fn start(&mut self, from: u64, to: u64) -> Option<u64> {
                let Parts { words, fields, bits, root, kernel, user, marked } = &mut self.board;
                met(match self.levels {
                    LEVELS => {
                        $calls::start(words, fields, bits, root, kernel, user, marked, from, to)
                    }
                    levels => $calls::start_levels(
                        words, fields, bits, root, kernel, user, marked, from, to, levels,
                    ),
                })
            }

            fn allocate_frame(&mut self) -> Option<u64> {
                met($calls::allocate_frame(&mut self.board.fields, &mut self.board.bits))
            }

            fn deallocate_frame(&mut self, frame: u64) -> Option<u64> {
                met($calls::deallocate_frame(&mut self.board.fields, &mut self.board.bits, frame))
            }

            fn mark_allocated(&mut self, frame: u64) -> Option<u64> {
                met($calls::mark_allocated(&mut self.board.fields, &mut self.board.bits, frame))
            }

            fn allocated_frames(&self) -> Option<u64> {
                met($calls::allocated_frames(&self.board.fields, &self.board.bits))
            }

            fn translate(&self, virt: u64) -> Option<u64> {
                let Parts { words, root, .. } = &self.board;
                met($calls::translate(words, self.start, self.total, self.levels, *root, virt))
            }

            fn show_translate(&mut self, virt: u64) -> Option<u64> {
                let $name { board: Parts { words, root, .. }, start, total, levels, shown } = self;
                let out = &mut shown.numbers;
                met($calls::show_translate(words, *start, *total, *levels, *root, virt, out))
            }

            fn user_may(&self, virt: u64, write: bool) -> Option<u64> {
                let $name { board: Parts { words, root, .. }, start, total, levels, .. } = self;
                met($calls::user_may(words, *start, *total, *levels, *root, virt, write))
            }

            fn map_page(&mut self, virt: u64, phys: u64) -> Option<u64> {
                let Parts { words, fields, bits, root, .. } = &mut self.board;
                met($calls::map_page(words, fields, bits, *root, virt, phys, true, true))
            }

            fn map_huge_page(&mut self, virt: u64, phys: u64, gigabyte: bool) -> Option<u64> {
                let Parts { words, fields, bits, root, .. } = &mut self.board;
                met($calls::map_huge_page(
                    words, fields, bits, *root, virt, phys, gigabyte, true, true,
                ))
            }

            fn unmap_page(&mut self, virt: u64) -> Option<u64> {
                let Parts { words, root, .. } = &mut self.board;
                met($calls::unmap_page(words, self.start, self.total, self.levels, *root, virt))
            }

            fn vmalloc(&mut self, size: u64) -> Option<u64> {
                let Parts { words, fields, bits, root, kernel, .. } = &mut self.board;
                met($calls::vmalloc(words, fields, bits, *root, kernel, size))
            }

            fn vfree(&mut self, addr: u64) -> Option<u64> {
                let Parts { words, fields, bits, root, kernel, .. } = &mut self.board;
                gave($calls::vfree(words, fields, bits, *root, kernel, addr))
            }

            fn mmap(&mut self, size: u64) -> Option<u64> {
                let Parts { words, fields, bits, root, user, .. } = &mut self.board;
                met($calls::mmap(words, fields, bits, *root, user, false, 0, size, 3, 0x22))
            }

            fn munmap(&mut self, addr: u64, size: u64) -> Option<u64> {
                let Parts { words, fields, bits, root, user, .. } = &mut self.board;
                gave($calls::munmap(words, fields, bits, *root, user, addr, size))
            }

            fn mprotect(&mut self, addr: u64, size: u64, prot: i32) -> Option<u64> {
                let $name { board: Parts { words, root, user, .. }, start, total, levels, .. } =
                    self;
                met($calls::mprotect(words, *start, *total, *levels, *root, user, addr, size, prot))
            }

            fn find_free_region(&self, size: u64) -> Option<u64> {
                let mut compared = 0;
                let line = $calls::find_free_region(&self.board.user, size, &mut compared);
                black_box(compared);
                met(line)
            }

            fn mark_cow(&mut self, addr: u64) -> Option<u64> {
                met($calls::mark_cow(&mut self.board.marked, addr))
            }

            fn unmark_cow(&mut self, addr: u64) -> Option<u64> {
                met($calls::unmark_cow(&mut self.board.marked, addr))
            }

            fn is_cow(&self, addr: u64) -> Option<u64> {
                met($calls::is_cow(&self.board.marked, addr))
            }

            fn fault(&mut self, addr: u64, code: u64) -> Option<u64> {
                let Parts { words, fields, bits, root, marked, .. } = &mut self.board;
                gave($calls::handle_page_fault(words, fields, bits, *root, marked, addr, code))
            }

            fn second_fault(&mut self, addr: u64, code: u64) -> Option<u64> {
                let Parts { words, fields, bits, root, .. } = &mut self.board;
                met($calls::handle_page_fault_second(words, fields, bits, *root, addr, code))
            }

            fn set_frames(&mut self, marked: u64) {
                *self.board.bits = raw::pack_bitmap(&lowest(marked));
                let frames = Frames { allocated: marked, ..self.board.frames() };
                self.board.fields = frames.pack();
            }

            fn set_next_addr(&mut self, next_addr: u64) {
                self.board.user[8..16].copy_from_slice(&next_addr.to_le_bytes());
            }

            fn set_marked(&mut self, list: &[u64]) {
                let mut pages = [0; 256];
                pages[..list.len()].copy_from_slice(list);
                self.board.marked = Marked { count: list.len() as u64, pages }.pack();
            }

            fn words_mut(&mut self) -> &mut [u64] {
                &mut self.board.words
            }
        }
    };
}

packed_side!(Port, raw);
packed_side!(Same, same);

/// The original, whose state is its own but for the frames.
pub struct Rust {
    pub board: oracle::Board,
}

/// The mapper that every call of the original makes anew.
fn mapper() -> PageMapper {
    // SAFETY: making a mapper only reads the lent root.
    unsafe { PageMapper::new() }
}

impl Side for Rust {
    /// Document 01's start on the original: its `init`s, a root, and empty collections.
    fn start(&mut self, from: u64, to: u64) -> Option<u64> {
        frame::access::init(from, to);
        let root = frame::allocate_frame()?;
        self.board.words_mut()[..512].fill(0);
        self.board.set_root(root.number());
        vmalloc::init();
        mmap::access::reset();
        page_fault::init_cow();
        Some(0)
    }

    fn allocate_frame(&mut self) -> Option<u64> {
        frame::allocate_frame().map(|frame| frame.number())
    }

    fn deallocate_frame(&mut self, frame: u64) -> Option<u64> {
        frame::deallocate_frame(frame::access::frame(frame));
        Some(0)
    }

    fn mark_allocated(&mut self, frame: u64) -> Option<u64> {
        frame::access::mark_allocated(frame);
        Some(0)
    }

    fn allocated_frames(&self) -> Option<u64> {
        Some(frame::get_stats().1)
    }

    fn translate(&self, virt: u64) -> Option<u64> {
        mapper().translate(VirtAddr::new(virt)).map(|phys| phys.as_u64())
    }

    /// The original shows none.
    fn show_translate(&mut self, _virt: u64) -> Option<u64> {
        None
    }

    /// The original has no such question.
    fn user_may(&self, _virt: u64, _write: bool) -> Option<u64> {
        None
    }

    fn map_page(&mut self, virt: u64, phys: u64) -> Option<u64> {
        let (virt, phys) = (VirtAddr::new(virt), PhysAddr::new(phys));
        mapper().map_page(virt, phys, true, true).ok().map(|()| 0)
    }

    fn map_huge_page(&mut self, virt: u64, phys: u64, gigabyte: bool) -> Option<u64> {
        let (virt, phys) = (VirtAddr::new(virt), PhysAddr::new(phys));
        let size = if gigabyte { HugePageSize::Size1GB } else { HugePageSize::Size2MB };
        mapper().map_huge_page(virt, phys, size, true, true).ok().map(|()| 0)
    }

    fn unmap_page(&mut self, virt: u64) -> Option<u64> {
        mapper().unmap_page(VirtAddr::new(virt)).ok().map(|frame| frame.number())
    }

    fn vmalloc(&mut self, size: u64) -> Option<u64> {
        vmalloc::vmalloc(size as usize).map(|found| found as u64)
    }

    fn vfree(&mut self, addr: u64) -> Option<u64> {
        // SAFETY: the board's pages are not in use by this program.
        unsafe { vmalloc::vfree(addr as *mut u8) };
        Some(0)
    }

    fn mmap(&mut self, size: u64) -> Option<u64> {
        mmap::mmap(None, size as usize, 3, 0x22, -1, 0).ok().map(|found| found as u64)
    }

    fn munmap(&mut self, addr: u64, size: u64) -> Option<u64> {
        mmap::munmap(addr as usize, size as usize).ok().map(|()| 0)
    }

    /// The original has none: it answers 9.
    fn mprotect(&mut self, _addr: u64, _size: u64, _prot: i32) -> Option<u64> {
        None
    }

    /// It counts nothing.
    fn find_free_region(&self, size: u64) -> Option<u64> {
        mmap::access::find_free_region(size)
    }

    fn mark_cow(&mut self, addr: u64) -> Option<u64> {
        page_fault::mark_cow(addr);
        Some(0)
    }

    fn unmark_cow(&mut self, addr: u64) -> Option<u64> {
        page_fault::unmark_cow(addr);
        Some(0)
    }

    fn is_cow(&self, addr: u64) -> Option<u64> {
        Some(page_fault::is_cow(addr).into())
    }

    fn fault(&mut self, addr: u64, code: u64) -> Option<u64> {
        page_fault::handle_page_fault(addr, code).ok().map(|()| 0)
    }

    fn second_fault(&mut self, addr: u64, code: u64) -> Option<u64> {
        page_handler::handle_page_fault(addr, code).ok().map(|()| 0)
    }

    fn set_frames(&mut self, marked: u64) {
        self.board.set_frames(&lowest(marked), marked);
    }

    fn set_next_addr(&mut self, next_addr: u64) {
        let regions: Vec<Region> = self.board.state().regions;
        self.board.set_mmap(&regions, next_addr);
    }

    fn set_marked(&mut self, pages: &[u64]) {
        self.board.set_marked(pages);
    }

    fn words_mut(&mut self) -> &mut [u64] {
        self.board.words_mut()
    }
}
