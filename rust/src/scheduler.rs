//! The scheduler.

use crate::error::Error;
use crate::packet::{Admitted, Dropped, Ecn, Flushed, Packet, Sent};
use crate::sys;
use crate::views::{Flow, Params, Totals};
use std::cell::UnsafeCell;
use std::ffi::{c_char, c_int, CStr};
use std::fmt::{self, Debug, Formatter};
use std::ptr;

/// A packet scheduler by FQ-CoDel. It takes all memory where it is opened, and gives it back where it is dropped; the
/// tags of what waits then are lost, so [`flush`](Scheduler::flush) it before. It may be sent to another thread, and
/// threads that share it need a lock around it.
// The C calls write the struct or behind its pointer, so it stands in a cell. The cell keeps the type from being shared by
// threads: calls that only look are calls, too.
pub struct Scheduler {
    inner: UnsafeCell<sys::Maltcove>,
}

// SAFETY: that a scheduler may go to another thread is proved of what C holds (`crates/maltcove_c/src/scheduler.rt`), and
// who owns or borrows this type makes one call at a time.
unsafe impl Send for Scheduler {}

/// Nothing, or why a call was refused.
fn made(answer: c_int) -> Result<(), Error> {
    if answer >= sys::OK {
        Ok(())
    } else {
        Err(Error::of(answer))
    }
}

/// A count, or why a call was refused.
fn counted(answer: i64) -> Result<usize, Error> {
    usize::try_from(answer).map_err(|_| Error::of(answer as c_int))
}

impl Scheduler {
    /// A scheduler with the parameters that words say, as `limit 1000 flows 64 target 5ms`, those of tc-fq_codel(8) and
    /// `mtu` and `classify hash` or `classify dport` besides, with blanks between them. What isn't said has its
    /// standard value. The seed keeps senders who don't know it from choosing flows that collide: take random bytes.
    ///
    /// It fails with [`Error::BadWords`] or [`Error::Memory`].
    pub fn open(words: &str, seed: [u8; 16]) -> Result<Scheduler, Error> {
        let mut inner = sys::Maltcove {
            inner: ptr::null_mut(),
            is_open: false,
        };
        let mut fault = sys::Fault::default();
        // SAFETY: all pointers are of values that live through the call, and the lengths are theirs.
        let answer = unsafe {
            let words_at = words.as_ptr().cast::<c_char>();
            sys::maltcove_open(
                &mut inner,
                words_at,
                words.len(),
                seed.as_ptr(),
                seed.len(),
                &mut fault,
            )
        };
        match answer {
            sys::OK => Ok(Scheduler {
                inner: UnsafeCell::new(inner),
            }),
            -8 => Err(Error::of_word(&fault)),
            _ => Err(Error::of(answer)),
        }
    }

    /// Accepts a packet. Where more waits then than `limit` or `memory_limit` allow, packets of the flow that has most
    /// bytes are dropped: read them by [`drops`](Scheduler::drops) before the next packet, which is refused else. The
    /// packet itself may be one of them. After a refusal its tag is still the caller's.
    ///
    /// It fails with [`Error::BadPacket`], [`Error::Unread`], [`Error::TooLarge`], [`Error::Backwards`],
    /// [`Error::Closed`] or [`Error::Exhausted`]: the first that applies.
    pub fn enqueue(&mut self, now_us: u64, packet: &Packet) -> Result<Admitted, Error> {
        let record = packet.record();
        let mut admitted = sys::Admitted::default();
        // SAFETY: the scheduler is open, and the records live through the call.
        made(unsafe {
            sys::maltcove_enqueue(self.inner.get_mut(), now_us, &record, &mut admitted)
        })?;
        Ok(Admitted {
            id: admitted.id,
            flow: admitted.flow,
            drops: admitted.drops,
        })
    }

    /// Accepts a packet into the flow that the caller has chosen, modulo the number of flows. Of a network card's hash
    /// take [`flow_of_hash`](crate::flow_of_hash).
    ///
    /// It fails as [`enqueue`](Scheduler::enqueue) does, and with [`Error::Hashed`] where the words lack
    /// `classify dport`.
    pub fn enqueue_flow(
        &mut self,
        now_us: u64,
        flow: u32,
        len: u32,
        ecn: Ecn,
        tag: u64,
    ) -> Result<Admitted, Error> {
        let mut admitted = sys::Admitted::default();
        // SAFETY: the scheduler is open, and the record lives through the call.
        made(unsafe {
            let inner = self.inner.get_mut();
            sys::maltcove_enqueue_flow(inner, now_us, flow, len, ecn.bits(), tag, &mut admitted)
        })?;
        Ok(Admitted {
            id: admitted.id,
            flow: admitted.flow,
            drops: admitted.drops,
        })
    }

    /// Gives the packet that is next, or none where none waits. CoDel may have dropped packets before it.
    ///
    /// It fails with [`Error::TooLarge`] or [`Error::Backwards`].
    pub fn dequeue(&mut self, now_us: u64) -> Result<Option<Sent>, Error> {
        let mut sent = sys::Sent::default();
        // SAFETY: the scheduler is open, and the record lives through the call.
        let answer = unsafe { sys::maltcove_dequeue(self.inner.get_mut(), now_us, &mut sent) };
        made(answer)?;
        Ok((answer != sys::IDLE).then(|| Sent::of(&sent)))
    }

    /// Gives up to `most` packets at one moment, at the end of `sent`, and says how many.
    ///
    /// It fails as [`dequeue`](Scheduler::dequeue) does.
    pub fn dequeue_burst(
        &mut self,
        now_us: u64,
        most: usize,
        sent: &mut Vec<Sent>,
    ) -> Result<usize, Error> {
        let mut records = [sys::Sent::default(); 32];
        let mut given = 0;
        while given < most {
            let room = records.len().min(most - given);
            // SAFETY: the scheduler is open, and the first `room` records live through the call.
            let n = counted(unsafe {
                sys::maltcove_dequeue_burst(
                    self.inner.get_mut(),
                    now_us,
                    records.as_mut_ptr(),
                    room,
                )
            })?;
            sent.extend(records[..n].iter().map(Sent::of));
            given += n;
            if n < room {
                break;
            }
        }
        Ok(given)
    }

    /// The drops that weren't read yet, in the order of the drops. Each is read as the iterator gives it; the others
    /// stay.
    pub fn drops(&mut self) -> Drops<'_> {
        Drops { scheduler: self }
    }

    /// Takes out what waits, as dequeues at the last moment do. Each packet is flushed as the iterator gives it; the
    /// others stay. What CoDel drops on the way is there to be read, by [`drops`](Scheduler::drops).
    pub fn flush(&mut self) -> Flush<'_> {
        Flush { scheduler: self }
    }

    /// From here on no packet is accepted; dequeues go on.
    ///
    /// It fails with [`Error::TooLarge`], [`Error::Backwards`] or [`Error::Closed`].
    pub fn close(&mut self, now_us: u64) -> Result<(), Error> {
        // SAFETY: the scheduler is open.
        made(unsafe { sys::maltcove_close(self.inner.get_mut(), now_us) })
    }

    /// Whether there was a close.
    pub fn is_closed(&self) -> bool {
        // SAFETY: the scheduler is open, and no other call runs, since the type isn't shared by threads.
        unsafe { sys::maltcove_is_closed(self.inner.get()) == 1 }
    }

    /// How many packets wait.
    pub fn queued(&self) -> u64 {
        // SAFETY: as at `is_closed`.
        unsafe { sys::maltcove_queued(self.inner.get()) as u64 }
    }

    /// The statistics of all packets so far.
    pub fn totals(&self) -> Totals {
        let mut totals = Totals::default();
        // SAFETY: as at `is_closed`, and the record lives through the call.
        unsafe { sys::maltcove_totals(self.inner.get(), &mut totals) };
        totals
    }

    /// What is kept of a flow, from 0. It fails with [`Error::BadFlow`].
    pub fn flow(&self, flow: u32) -> Result<Flow, Error> {
        let mut view = sys::Flow::default();
        // SAFETY: as at `totals`.
        made(unsafe { sys::maltcove_flow(self.inner.get(), flow, &mut view) })?;
        Ok(Flow::of(&view))
    }

    /// The parameters.
    pub fn params(&self) -> Params {
        let mut params = sys::Params::default();
        // SAFETY: as at `totals`.
        unsafe { sys::maltcove_params(self.inner.get(), &mut params) };
        Params::of(&params)
    }
}

impl Drop for Scheduler {
    fn drop(&mut self) {
        // SAFETY: the scheduler is open, and this is the last call.
        unsafe { sys::maltcove_free(self.inner.get_mut()) };
    }
}

impl Debug for Scheduler {
    fn fmt(&self, f: &mut Formatter<'_>) -> fmt::Result {
        f.debug_struct("Scheduler")
            .field("params", &self.params())
            .field("totals", &self.totals())
            .finish()
    }
}

/// The drops of a scheduler that weren't read yet.
#[derive(Debug)]
pub struct Drops<'a> {
    scheduler: &'a mut Scheduler,
}

impl Iterator for Drops<'_> {
    type Item = Dropped;

    fn next(&mut self) -> Option<Dropped> {
        let mut dropped = sys::Dropped::default();
        // SAFETY: the scheduler is open, and the one record lives through the call.
        let n = unsafe { sys::maltcove_drops(self.scheduler.inner.get_mut(), &mut dropped, 1) };
        (n == 1).then(|| Dropped::of(&dropped))
    }
}

/// The packets of a scheduler that wait, as they are flushed.
#[derive(Debug)]
pub struct Flush<'a> {
    scheduler: &'a mut Scheduler,
}

impl Iterator for Flush<'_> {
    type Item = Flushed;

    fn next(&mut self) -> Option<Flushed> {
        let mut flushed = sys::Flushed::default();
        // SAFETY: the scheduler is open, and the one record lives through the call.
        let n = unsafe { sys::maltcove_flush(self.scheduler.inner.get_mut(), &mut flushed, 1) };
        (n == 1).then_some(Flushed {
            tag: flushed.tag,
            id: flushed.id,
        })
    }
}

/// The version of the library, as `0.1.0`.
pub fn version() -> &'static str {
    // SAFETY: the library answers a text that ends with 0 and stays.
    let text = unsafe { CStr::from_ptr(sys::maltcove_version()) };
    text.to_str().unwrap_or("")
}
