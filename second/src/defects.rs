//! The pack that is mounted, and the defect layer over it. A mark makes the ID
//! or the data of a place spoiled without changing a byte; there is room for 32.

use crate::chained_pack::ChainedPack;
use crate::drive::{Data, Drive, Label, Spot};
use crate::numbers::Number;
use crate::plain_pack::PlainPack;

pub const MOST_MARKS: usize = 32;

#[derive(Clone)]
pub enum Pack {
    Plain(PlainPack),
    Chained(ChainedPack),
}

impl Pack {
    pub fn bytes(&self) -> &[u8] {
        match self {
            Pack::Plain(pack) => pack.bytes(),
            Pack::Chained(pack) => pack.bytes(),
        }
    }

    fn drive(&self) -> &dyn Drive {
        match self {
            Pack::Plain(pack) => pack,
            Pack::Chained(pack) => pack,
        }
    }

    fn drive_mut(&mut self) -> &mut dyn Drive {
        match self {
            Pack::Plain(pack) => pack,
            Pack::Chained(pack) => pack,
        }
    }
}

#[derive(Clone, Copy, PartialEq, Eq, Debug)]
pub enum Part {
    Id,
    Data,
}

#[derive(Clone)]
pub struct Defects {
    pub pack: Pack,
    marks: Vec<(Part, Spot)>,
}

impl Defects {
    pub fn over(pack: Pack) -> Defects {
        Defects { pack, marks: Vec::new() }
    }

    pub fn mark(&mut self, part: Part, spot: Spot) -> Result<(), Number> {
        if !self.holds(spot) {
            return Err(Number::NoSuchPlace);
        }
        if self.marked(part, spot) {
            return Ok(());
        }
        if self.marks.len() == MOST_MARKS {
            return Err(Number::MarksFull);
        }
        self.marks.push((part, spot));
        Ok(())
    }

    pub fn lift(&mut self, part: Part, spot: Spot) -> Result<(), Number> {
        if !self.holds(spot) {
            return Err(Number::NoSuchPlace);
        }
        self.marks.retain(|mark| *mark != (part, spot));
        Ok(())
    }

    fn marked(&self, part: Part, spot: Spot) -> bool {
        self.marks.contains(&(part, spot))
    }
}

impl Drive for Defects {
    fn heads(&self) -> u32 {
        self.pack.drive().heads()
    }

    fn label(&self, spot: Spot) -> Label {
        let below = self.pack.drive().label(spot);
        Label {
            id_good: below.id_good && !self.marked(Part::Id, spot),
            data_good: below.data_good && !self.marked(Part::Data, spot),
            id: below.id,
        }
    }

    fn read(&self, spot: Spot) -> Result<Data, Number> {
        if !self.label(spot).id_good {
            return Err(Number::NoSuchPlace);
        }
        self.pack.drive().read(spot)
    }

    fn write(&mut self, spot: Spot, data: &Data) -> Result<(), Number> {
        if !self.label(spot).id_good {
            return Err(Number::NoSuchPlace);
        }
        self.pack.drive_mut().write(spot, data)?;
        self.lift(Part::Data, spot)
    }
}

#[cfg(test)]
mod tests {
    use super::*;

    fn fresh() -> Defects {
        Defects::over(Pack::Plain(PlainPack::fresh(2).unwrap()))
    }

    const SPOT: Spot = Spot { cylinder: 3, head: 1, place: 7 };

    #[test]
    fn a_marked_id_closes_the_data_and_changes_no_byte() {
        let mut drive = fresh();
        let before = drive.pack.bytes().to_vec();
        let id = drive.label(SPOT).id;
        drive.mark(Part::Id, SPOT).unwrap();
        drive.mark(Part::Data, SPOT).unwrap();
        assert_eq!(drive.read(SPOT), Err(Number::NoSuchPlace));
        assert_eq!(drive.write(SPOT, &[1; 256]), Err(Number::NoSuchPlace));
        assert_eq!(drive.label(SPOT), Label { id_good: false, data_good: false, id });
        assert!(drive.pack.bytes() == before);
        // The refused write lifted nothing.
        drive.lift(Part::Id, SPOT).unwrap();
        assert_eq!(drive.label(SPOT), Label { id_good: true, data_good: false, id });
    }

    #[test]
    fn a_mark_on_what_is_spoiled_already_takes_an_entry() {
        let mut bytes = PlainPack::fresh(2).unwrap().bytes().to_vec();
        bytes[0] = 1;
        let mut drive = Defects::over(Pack::Plain(PlainPack::open(bytes).unwrap()));
        for place in 0..32 {
            assert_eq!(drive.mark(Part::Id, Spot { cylinder: 0, head: 0, place }), Ok(()));
        }
        assert_eq!(drive.mark(Part::Data, SPOT), Err(Number::MarksFull));
        drive.lift(Part::Id, Spot { cylinder: 0, head: 0, place: 0 }).unwrap();
        assert!(!drive.label(Spot { cylinder: 0, head: 0, place: 0 }).id_good);
        assert_eq!(drive.mark(Part::Data, SPOT), Ok(()));
    }

    #[test]
    fn an_accepted_write_frees_the_entry() {
        let mut drive = fresh();
        for place in 0..32 {
            drive.mark(Part::Data, Spot { cylinder: 0, head: 0, place }).unwrap();
        }
        assert_eq!(drive.mark(Part::Data, SPOT), Err(Number::MarksFull));
        drive.write(Spot { cylinder: 0, head: 0, place: 9 }, &[5; 256]).unwrap();
        assert!(drive.label(Spot { cylinder: 0, head: 0, place: 9 }).data_good);
        assert_eq!(drive.mark(Part::Data, SPOT), Ok(()));
    }

    #[test]
    fn off_the_drive_everything_is_spoiled_and_zero() {
        let drive = fresh();
        for spot in [Spot { cylinder: 303, ..SPOT }, Spot { head: 2, ..SPOT }, Spot { place: 60, ..SPOT }] {
            assert_eq!(drive.label(spot), crate::drive::NOTHING);
            assert_eq!(drive.read(spot), Err(Number::NoSuchPlace));
        }
    }
}
