//! The rules of reading as a list of checks on an image taken apart, so that one can be left out, and what a reading or
//! a writing does, so that it can do something else.

use model::images::{Sections, written};
use model::{Refusal, Service, Sizes};

pub type Check = fn(Sizes, &Sections) -> bool;

pub enum Wrong {
    /// This check of the list is left out.
    Accepts(Check),
    /// One check too many.
    Refuses(Check),
    /// The bytes are taken for others.
    Bytes(fn(Sizes, &[u8]) -> Vec<u8>),
    /// After a right reading, given the service before it and the image.
    Taken(fn(&Service, &Sections, &mut Service)),
    /// After a string that is refused.
    Refused(fn(&Sections, &mut Service)),
    /// The image is written in another way.
    Written(fn(&mut Sections)),
}

pub struct Fault {
    pub name: &'static str,
    pub wrong: Wrong,
}

impl Fault {
    /// Reads an image wrongly; `checks` are all that there are, one of them for each fault that leaves one out.
    pub fn read_with(&self, checks: &[&Fault], service: &mut Service, bytes: &[u8]) -> Result<(), Refusal> {
        let (sizes, sections) = (service.sizes(), Sections::of(bytes));
        match self.wrong {
            Wrong::Accepts(_) => {
                let others = checks.iter().filter(|check| check.name != self.name);
                let holds = |check: &&&Fault| matches!(check.wrong, Wrong::Accepts(holds) if holds(sizes, &sections));
                if others.clone().filter(holds).count() < others.count() {
                    return Err(Refusal::NoImage);
                }
                take(&sections, service);
                Ok(())
            }
            Wrong::Refuses(holds) if !holds(sizes, &sections) => Err(Refusal::NoImage),
            Wrong::Refuses(_) => service.read_image(bytes),
            Wrong::Bytes(taken) => service.read_image(&taken(sizes, bytes)),
            Wrong::Written(_) => service.read_image(bytes),
            Wrong::Taken(change) => {
                let before = service.clone();
                service.read_image(bytes)?;
                change(&before, &sections, service);
                Ok(())
            }
            Wrong::Refused(change) => {
                let result = service.read_image(bytes);
                if result.is_err() {
                    change(&sections, service);
                }
                result
            }
        }
    }
}

impl Fault {
    /// The image as it is written with this fault.
    pub fn written(&self, service: &Service) -> Result<Vec<u8>, Refusal> {
        let image = written(service)?;
        let Wrong::Written(change) = self.wrong else { return Ok(image) };
        let mut sections = Sections::of(&image);
        change(&mut sections);
        Ok(sections.join())
    }
}

/// The reading of an image that is taken for one: each entry that has a place, the later over the earlier.
fn take(sections: &Sections, service: &mut Service) {
    let sizes = service.sizes();
    let image = sections.service(sizes);
    service.server.set_embargoes(sizes, image.server.embargoed);
    for (entry, taken) in service.server.entries[..sizes.files].iter_mut().zip(&image.server.entries) {
        entry.version = taken.version;
        entry.blocks[..sizes.blocks].copy_from_slice(&taken.blocks[..sizes.blocks]);
        entry.used[..sizes.blocks].copy_from_slice(&taken.used[..sizes.blocks]);
    }
    service.server.crash(sizes);
}
