//! The calls on maps with what is lent to them, for rows of calls in which one takes what another wrote: how many rows they write, or the number

use segment_table::ffi::{ st_cut, st_cuts, st_join, st_merge };

type Lent<'a> = (&'a [u64], &'a [i64]);
type Room<'a> = (&'a mut [u64], &'a mut [i64]);

fn told(call: impl FnOnce(*mut u64, *mut u64) -> u64) -> Result<usize, u64> {
    let (mut rows, mut index) = (0, 0);
    match call(&mut rows, &mut index) { 0 => Ok(rows as usize), number => Err(number) }
}

pub fn cut((u, s): Lent, a: u64, b: u64, (ou, os): Room) -> Result<usize, u64> {
    told(|rows, index| unsafe { st_cut(u.as_ptr(), u.len(), s.as_ptr(), s.len(), a, b, ou.as_mut_ptr(), ou.len(), os.as_mut_ptr(), os.len(), rows, index) })
}

pub fn cuts((u, s): Lent, ranges: &[u64], (ou, os): Room, counts: &mut [u64]) -> Result<usize, u64> {
    told(|rows, index| unsafe {
        st_cuts(
            u.as_ptr(), u.len(), s.as_ptr(), s.len(), ranges.as_ptr(), ranges.len(), ou.as_mut_ptr(), ou.len(), os.as_mut_ptr(), os.len(),
            counts.as_mut_ptr(), counts.len(), rows, index,
        )
    })
}

pub fn join((u, s): Lent, (v, t): Lent, (ou, os): Room) -> Result<usize, u64> {
    told(|rows, index| unsafe {
        st_join(u.as_ptr(), u.len(), s.as_ptr(), s.len(), v.as_ptr(), v.len(), t.as_ptr(), t.len(), ou.as_mut_ptr(), ou.len(), os.as_mut_ptr(), os.len(), rows, index)
    })
}

pub fn merge((u, s): Lent, (ou, os): Room) -> Result<usize, u64> {
    told(|rows, index| unsafe { st_merge(u.as_ptr(), u.len(), s.as_ptr(), s.len(), ou.as_mut_ptr(), ou.len(), os.as_mut_ptr(), os.len(), rows, index) })
}
