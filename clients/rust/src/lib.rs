//! ROHC-FN (RFC 4997) profiles at work, by the library rohcfn_c, in safe Rust.
//!
//! ```no_run
//! let profile = std::fs::read("udp.profile").unwrap();
//! let mut session = rohcfn::Session::open("udp_ip", &profile, &[], 1)?;
//! let header = rohcfn::Bits::of(&[0x5a, 0xbc], 16);
//! let packet = session.pack(0, &header, &[])?;
//! let item = session.unpack(0, &packet)?;
//! assert_eq!(item.header, header);
//! # Ok::<(), rohcfn::Error>(())
//! ```

mod calls;
mod error;

pub use error::Error;

use calls::{Counts, Handle};

/// The room of a line or a name.
const LINE: usize = 4096;

/// Bits: the first is the highest of the first octet, and those after the last are zero.
#[derive(Clone, Debug, PartialEq, Eq)]
pub struct Bits {
    pub count: usize,
    pub octets: Vec<u8>,
}

impl Bits {
    /// The bits of octets, of which there are so many.
    pub fn of(octets: &[u8], count: usize) -> Bits {
        Bits {
            count,
            octets: octets.to_vec(),
        }
    }
}

/// An asked field: its name, and how many bits its values have.
#[derive(Clone, Debug, PartialEq, Eq)]
pub struct AskedField {
    pub name: String,
    pub bits: usize,
}

/// What was unpacked: the header, the octets of the values of the asked fields, and how many bits the packet took.
#[derive(Clone, Debug, PartialEq, Eq)]
pub struct Item {
    pub header: Bits,
    pub asked: Vec<u8>,
    pub taken: usize,
}

/// Several flows of a profile, each with both of its ends. It may go to another thread.
pub struct Session {
    handle: Handle,
    header_octets: usize,
    packet_octets: usize,
    asked: Vec<AskedField>,
}

impl Session {
    /// Opens so many flows, 1 to 64, by the octets of a profile whose top method has this name, and by its certificate; with no octets for that it is made.
    pub fn open(top: &str, profile: &[u8], certificate: &[u8], flows: usize) -> Result<Session, Error> {
        let mut session = Session {
            handle: Handle::closed(),
            header_octets: 0,
            packet_octets: 0,
            asked: Vec::new(),
        };
        let (mut line, mut said) = ([0; LINE], 0);
        // SAFETY: a slice's pointer is never null, the handle has no session, and what is written overlaps nothing.
        let answer = unsafe {
            calls::rohcfn_open(
                top.as_ptr(),
                top.len(),
                profile.as_ptr(),
                profile.len(),
                certificate.as_ptr(),
                certificate.len(),
                flows,
                &mut session.handle,
                line.as_mut_ptr(),
                line.len(),
                &mut said,
            )
        };
        check(answer, || text_of(&line, said))?;
        session.measure()?;
        Ok(session)
    }

    /// Asks how much room there must be, and for the asked fields.
    fn measure(&mut self) -> Result<(), Error> {
        let (header, packet) = self.most()?;
        self.header_octets = header.div_ceil(8);
        self.packet_octets = packet.div_ceil(8);
        while let Some(field) = self.asked_at(self.asked.len())? {
            self.asked.push(field);
        }
        Ok(())
    }

    /// The most bits of a header and of a packet.
    pub fn most(&mut self) -> Result<(usize, usize), Error> {
        let (mut header, mut packet) = (0, 0);
        // SAFETY: the handle is this value's alone, and only the library wrote it. So it is below.
        let answer = unsafe { calls::rohcfn_most(&mut self.handle, &mut header, &mut packet) };
        check(answer, String::new)?;
        Ok((header, packet))
    }

    /// The asked field at a place, or `None` past the last.
    fn asked_at(&mut self, index: usize) -> Result<Option<AskedField>, Error> {
        let (mut name, mut said, mut bits) = ([0; LINE], 0, 0);
        // SAFETY: as above.
        let answer = unsafe { calls::rohcfn_asked(&mut self.handle, index, name.as_mut_ptr(), name.len(), &mut said, &mut bits) };
        match check(answer, String::new) {
            Ok(()) => Ok(Some(AskedField {
                name: text_of(&name, said),
                bits,
            })),
            Err(Error::NoSuch) => Ok(None),
            Err(error) => Err(error),
        }
    }

    /// The asked fields, in the order of CONTROL.
    pub fn asked(&self) -> &[AskedField] {
        &self.asked
    }

    /// The packet of an item of a flow: its header, and the octets of the values of the asked fields.
    pub fn pack(&mut self, flow: usize, header: &Bits, asked: &[u8]) -> Result<Bits, Error> {
        let (mut octets, mut count) = (vec![0; self.packet_octets], 0);
        // SAFETY: as above; the octets are a slice of their own.
        let answer = unsafe {
            calls::rohcfn_pack(
                &mut self.handle,
                flow,
                header.octets.as_ptr(),
                header.octets.len(),
                header.count,
                asked.as_ptr(),
                asked.len(),
                octets.as_mut_ptr(),
                octets.len(),
                &mut count,
            )
        };
        check(answer, || self.why())?;
        octets.truncate(count.div_ceil(8));
        Ok(Bits { count, octets })
    }

    /// The item of the packet of a flow that begins the bits.
    pub fn unpack(&mut self, flow: usize, packet: &Bits) -> Result<Item, Error> {
        let (mut header, mut counts) = (vec![0; self.header_octets], Counts::default());
        let mut asked = vec![0; self.asked.iter().map(|field| field.bits.div_ceil(8)).sum()];
        // SAFETY: as above; the header and the values are slices of their own.
        let answer = unsafe {
            calls::rohcfn_unpack(
                &mut self.handle,
                flow,
                packet.octets.as_ptr(),
                packet.octets.len(),
                packet.count,
                header.as_mut_ptr(),
                header.len(),
                asked.as_mut_ptr(),
                asked.len(),
                &mut counts,
            )
        };
        check(answer, || self.why())?;
        header.truncate(counts.header_bits.div_ceil(8));
        asked.truncate(counts.asked_octets);
        Ok(Item {
            header: Bits {
                count: counts.header_bits,
                octets: header,
            },
            asked,
            taken: counts.taken_bits,
        })
    }

    /// Both ends of a flow begin anew.
    pub fn reset(&mut self, flow: usize) -> Result<(), Error> {
        // SAFETY: as above.
        check(unsafe { calls::rohcfn_reset(&mut self.handle, flow) }, String::new)
    }

    /// From here on so many packets of a flow in a row may be lost.
    pub fn robust(&mut self, flow: usize, lost: u8) -> Result<(), Error> {
        // SAFETY: as above.
        check(unsafe { calls::rohcfn_robust(&mut self.handle, flow, lost) }, String::new)
    }

    /// How many contexts a receiver of a flow may hold.
    pub fn contexts(&mut self, flow: usize) -> Result<usize, Error> {
        let mut count = 0;
        // SAFETY: as above.
        let answer = unsafe { calls::rohcfn_contexts(&mut self.handle, flow, &mut count) };
        check(answer, String::new)?;
        Ok(count)
    }

    /// The line of the last refusal, as the program prints it after `item 1: ` or `packet 1: `.
    fn why(&mut self) -> String {
        let (mut line, mut said) = ([0; LINE], 0);
        // SAFETY: as above.
        let answer = unsafe { calls::rohcfn_why(&mut self.handle, line.as_mut_ptr(), line.len(), &mut said) };
        if answer == 0 {
            text_of(&line, said)
        } else {
            String::new()
        }
    }
}

// SAFETY: the library proves that a handle may go to another thread, and each call that uses it has `&mut self`.
unsafe impl Send for Session {}

impl Drop for Session {
    fn drop(&mut self) {
        // SAFETY: as above; the handle is not used again.
        unsafe { calls::rohcfn_close(&mut self.handle) }
    }
}

/// The error of an answer, with the line that is said then.
fn check(answer: i32, line: impl FnOnce() -> String) -> Result<(), Error> {
    match Error::of(answer, line) {
        None => Ok(()),
        Some(error) => Err(error),
    }
}

/// What was written of a text of so many octets.
fn text_of(line: &[u8], said: usize) -> String {
    String::from_utf8_lossy(&line[..said.min(line.len())]).into_owned()
}
