//! Stands in for triomphe, which Debian 12 doesn't have: a shared pointer with one atomic counter and no weak ones, so that the costs of cloning and
//! dropping are those of the real crate, and a header in front of a value that may be unsized.

use std::alloc::{alloc, handle_alloc_error, Layout};
use std::fmt;
use std::marker::PhantomData;
use std::ops::Deref;
use std::ptr::{self, NonNull};
use std::sync::atomic::{fence, AtomicUsize, Ordering};

#[repr(C)]
pub struct HeaderSlice<H, T: ?Sized> {
    pub header: H,
    pub slice: T,
}

impl<H: Clone, T: Clone> Clone for HeaderSlice<H, T> {
    fn clone(&self) -> Self {
        HeaderSlice { header: self.header.clone(), slice: self.slice.clone() }
    }
}

#[repr(C)]
struct Counted<T: ?Sized> {
    count: AtomicUsize,
    data: T,
}

pub struct Arc<T: ?Sized> {
    counted: NonNull<Counted<T>>,
    owned: PhantomData<T>,
}

// SAFETY: the counter is atomic and the value is only lent mutably when it is not shared.
unsafe impl<T: ?Sized + Send + Sync> Send for Arc<T> {}
unsafe impl<T: ?Sized + Send + Sync> Sync for Arc<T> {}

impl<T> Arc<T> {
    #[inline]
    pub fn new(data: T) -> Self {
        let count = AtomicUsize::new(1);
        Arc { counted: NonNull::from(Box::leak(Box::new(Counted { count, data }))), owned: PhantomData }
    }
}

impl<H> Arc<HeaderSlice<H, str>> {
    pub fn from_header_and_str(header: H, text: &str) -> Self {
        let align = std::mem::align_of::<Counted<HeaderSlice<H, [u8; 0]>>>();
        let prefix = std::mem::offset_of!(Counted<HeaderSlice<H, [u8; 0]>>, data) + std::mem::offset_of!(HeaderSlice<H, [u8; 0]>, slice);
        let layout = Layout::from_size_align(prefix + text.len(), align).unwrap().pad_to_align();
        // SAFETY: the layout is that of the counted header with `text.len()` bytes at its end, and every field is written before it is read.
        unsafe {
            let start = alloc(layout);
            if start.is_null() {
                handle_alloc_error(layout);
            }
            let wide = ptr::slice_from_raw_parts_mut(start, text.len()) as *mut Counted<HeaderSlice<H, str>>;
            ptr::write(&raw mut (*wide).count, AtomicUsize::new(1));
            ptr::write(&raw mut (*wide).data.header, header);
            ptr::copy_nonoverlapping(text.as_ptr(), start.add(prefix), text.len());
            Arc { counted: NonNull::new_unchecked(wide), owned: PhantomData }
        }
    }
}

impl<T: ?Sized> Arc<T> {
    #[inline]
    fn counted(&self) -> &Counted<T> {
        // SAFETY: the allocation lives as long as any `Arc` to it.
        unsafe { self.counted.as_ref() }
    }

    #[inline]
    pub fn ptr_eq(this: &Self, other: &Self) -> bool {
        ptr::addr_eq(this.counted.as_ptr(), other.counted.as_ptr())
    }

    #[inline]
    pub fn as_ptr(this: &Self) -> *const T {
        &this.counted().data
    }

    #[inline]
    pub fn get_mut(this: &mut Self) -> Option<&mut T> {
        if this.counted().count.load(Ordering::Acquire) == 1 {
            // SAFETY: this is the only pointer to the allocation, and it is borrowed mutably.
            Some(unsafe { &mut this.counted.as_mut().data })
        } else {
            None
        }
    }
}

impl<T: Clone> Arc<T> {
    #[inline]
    pub fn make_mut(this: &mut Self) -> &mut T {
        if this.counted().count.load(Ordering::Acquire) != 1 {
            *this = Arc::new(T::clone(this));
        }
        // SAFETY: this is now the only pointer to the allocation.
        unsafe { &mut this.counted.as_mut().data }
    }
}

impl<T: ?Sized> Clone for Arc<T> {
    #[inline]
    fn clone(&self) -> Self {
        self.counted().count.fetch_add(1, Ordering::Relaxed);
        Arc { counted: self.counted, owned: PhantomData }
    }
}

impl<T: ?Sized> Drop for Arc<T> {
    #[inline]
    fn drop(&mut self) {
        if self.counted().count.fetch_sub(1, Ordering::Release) != 1 {
            return;
        }
        fence(Ordering::Acquire);
        // SAFETY: the last pointer is gone; `Box` frees with the layout of the value, which is the one it was allocated with.
        unsafe { drop(Box::from_raw(self.counted.as_ptr())) }
    }
}

impl<T: ?Sized> Deref for Arc<T> {
    type Target = T;

    #[inline]
    fn deref(&self) -> &T {
        &self.counted().data
    }
}

impl<T: ?Sized + PartialEq> PartialEq for Arc<T> {
    fn eq(&self, other: &Self) -> bool {
        Self::ptr_eq(self, other) || **self == **other
    }
}

impl<T: ?Sized + Eq> Eq for Arc<T> {}

impl<T: ?Sized + fmt::Debug> fmt::Debug for Arc<T> {
    fn fmt(&self, f: &mut fmt::Formatter<'_>) -> fmt::Result {
        (**self).fmt(f)
    }
}
