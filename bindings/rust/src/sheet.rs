//! Feed sheets, and the questions about one.
use crate::causes::Causes;
use crate::ffi;
use crate::plan::{Held, Plan};
use crate::refusal::{Fault, Refusal};
use std::cmp::Ordering;

/// The numbers of a sheet's head line but the number of rations.
#[derive(Clone, Copy, Debug, PartialEq, Eq, Hash)]
pub struct Head {
    /// Slots of the day, 1 to 96.
    pub slots: u32,
    /// Blowers, 1 to 8.
    pub blowers: u32,
    /// What a start costs, 0 to 2,000.
    pub wake: u32,
}

/// A meal of a tank. A tank may have several, one after another on the sheet, each beginning after the last slot of the
/// one before.
#[derive(Clone, Copy, Debug, PartialEq, Eq, Hash)]
pub struct Ration {
    /// The tank, 1 to 250,000; on a sheet, not below that of the ration before.
    pub tank: u32,
    /// The first slot of its window.
    pub first: u32,
    /// The last slot of its window.
    pub last: u32,
    /// In how many of these slots it is fed.
    pub volume: u32,
}

/// How many feedings a slot is to hold, at least and at most.
#[derive(Clone, Copy, Debug, PartialEq, Eq, Hash)]
pub struct Bounds {
    /// At least.
    pub low: u32,
    /// At most; above the blowers it means the blowers.
    pub high: u32,
}

/// A feed sheet that was accepted: its bytes pass the checks 1 to 9 and 13.
#[derive(Clone, Debug, PartialEq, Eq)]
pub struct Sheet {
    bytes: Vec<u8>,
    head: Head,
    rations: Vec<Ration>,
}

impl Sheet {
    /// Takes the bytes of a sheet.
    ///
    /// # Errors
    ///
    /// The first fault of the bytes, and its line.
    pub fn read(bytes: impl Into<Vec<u8>>) -> Result<Sheet, Refusal> {
        let bytes = bytes.into();
        let reading = ffi::read(&bytes);
        if let Some(fault) = Fault::from_number(reading.number) {
            return Err(Refusal {
                fault,
                line: reading.line,
            });
        }
        let rations = reading.numbers[..4 * reading.rations as usize]
            .chunks_exact(4)
            .map(|n| Ration {
                tank: n[0],
                first: n[1],
                last: n[2],
                volume: n[3],
            })
            .collect();
        Ok(Sheet {
            bytes,
            head: Head {
                slots: reading.slots,
                blowers: reading.blowers,
                wake: reading.wake,
            },
            rations,
        })
    }

    /// Makes a sheet of its numbers.
    ///
    /// # Errors
    ///
    /// The first fault of the numbers, and the line that the ration would have had.
    pub fn write(head: Head, rations: &[Ration]) -> Result<Sheet, Refusal> {
        let numbers: Vec<u32> = rations
            .iter()
            .flat_map(|r| [r.tank, r.first, r.last, r.volume])
            .collect();
        let mut bytes = vec![0; ffi::LINE_BYTES * (rations.len() + 1)];
        // a count that 32 bits can't hold is refused as any count above 64 is
        let count = u32::try_from(rations.len()).unwrap_or(u32::MAX);
        let written = ffi::write(
            head.slots,
            head.blowers,
            head.wake,
            count,
            &numbers,
            &mut bytes,
        );
        if let Some(fault) = Fault::from_number(written.number) {
            return Err(Refusal {
                fault,
                line: written.line,
            });
        }
        Ok(Sheet {
            bytes,
            head,
            rations: rations.to_vec(),
        })
    }

    /// The practice sheet of a seed: a day to load a cabinet with before there are fish. The same seed always makes the
    /// same sheet.
    ///
    /// The sheet has 96 slots; its other numbers are drawn one after another, as `kiwimound_practice` in the C header
    /// says.
    ///
    /// Every such sheet passes the checks of [`Sheet::read`]. Some are held when planned.
    ///
    /// ```
    /// use kiwimound::Sheet;
    ///
    /// let sheet = Sheet::practice(21);
    /// assert_eq!(
    ///     sheet.bytes(),
    ///     b"    96     5   156     2\n     1    90    93     1\n     2    96    96     1\n"
    /// );
    /// assert_eq!(Sheet::read(sheet.bytes()), Ok(sheet));
    /// ```
    pub fn practice(seed: u32) -> Sheet {
        Sheet::read(ffi::practice(seed)).expect("every practice sheet passes the checks")
    }

    /// The sheet's bytes.
    pub fn bytes(&self) -> &[u8] {
        &self.bytes
    }

    /// The numbers of the head line.
    pub fn head(&self) -> Head {
        self.head
    }

    /// The rations, in sheet order.
    pub fn rations(&self) -> &[Ration] {
        &self.rations
    }

    /// All lines of a tank, closing bytes 10 included, as one part of [`Sheet::bytes`].
    pub fn find(&self, tank: u32) -> Option<&[u8]> {
        let part = ffi::find(&self.bytes, tank);
        (part.length != 0).then(|| &self.bytes[part.start..part.start + part.length])
    }

    /// The meals of a tank, in the order of the day, as a part of [`Sheet::rations`]; none if the sheet has no such
    /// tank.
    pub fn meals(&self, tank: u32) -> &[Ration] {
        let part = ffi::find(&self.bytes, tank);
        // the head line stands before the first ration's
        let first = (part.start / ffi::LINE_BYTES).saturating_sub(1);
        &self.rations[first..first + part.length / ffi::LINE_BYTES]
    }

    /// Plans the day.
    ///
    /// # Errors
    ///
    /// The sheet is held for want of blowers: some slots have more feedings forced into them than the blowers can make
    /// there. [`Sheet::plan_share`] plans such a sheet too, with less of each ration.
    pub fn plan(&self) -> Result<Plan, Held> {
        self.outcome(ffi::plan(&self.bytes))
    }

    /// Plans the day with its rations equally cut, so that a sheet that is held has a plan too: gives the share of the
    /// volumes that is fed, in a hundred, and the plan.
    ///
    /// At a share of s, of each ration the whole part of volume × s / 100 is left. The share is the greatest for which
    /// the day can be planned, from 1 to 100: share 1 leaves nothing of any ration, and 100 means that nothing is cut
    /// and the plan is that of [`Sheet::plan`]. A ration of which nothing is left keeps its place among the rations.
    ///
    /// ```
    /// use kiwimound::Sheet;
    ///
    /// // Both rations need slot 2, and there is one blower.
    /// let sheet = Sheet::read(concat!(
    ///     "     3     1     1     2\n",
    ///     "     1     1     2     2\n",
    ///     "     2     2     3     2\n",
    /// ))?;
    /// assert!(sheet.plan().is_err());
    /// // At 99 in a hundred, each has one feeding of its two.
    /// let (share, plan) = sheet.plan_share();
    /// assert_eq!(share, 99);
    /// assert!(plan.tanks_in(2).eq([1]) && plan.tanks_in(3).eq([2]));
    /// # Ok::<(), Box<dyn std::error::Error>>(())
    /// ```
    pub fn plan_share(&self) -> (u32, Plan) {
        let (share, day) = ffi::plan_share(&self.bytes);
        let plan = self.outcome(day);
        (share, plan.expect("a share of every sheet can be planned"))
    }

    /// What planning this sheet came to, alone, as a hall or with its rations cut.
    pub(crate) fn outcome(&self, day: ffi::Day) -> Result<Plan, Held> {
        match day.number {
            0 => {
                let tanks = self.rations.iter().map(|r| r.tank).collect();
                Ok(Plan::new(day.listing, day.placing, tanks))
            }
            12 => Err(Held::new(&day.listing)),
            number => unreachable!("number {number} for an accepted sheet"),
        }
    }

    /// Whether the day can be planned.
    pub fn can_be_planned(&self) -> bool {
        ffi::plan_number(&self.bytes).number == 0
    }

    /// Why each stretch of the day's plan ends where it does.
    ///
    /// ```
    /// use kiwimound::{Cause, Sheet};
    ///
    /// let sheet = Sheet::read("     3     1     1     1\n     1     1     3     1\n")?;
    /// let causes = sheet.causes()?;
    /// // Blower 1 starts in slot 3 and no later: idle to slot 3, it leaves the ration none of its slots.
    /// let idle = &causes.endings()[0];
    /// assert_eq!((idle.blower, idle.last), (1, 2));
    /// assert_eq!(idle.cause, Cause::Shortfall { slots: vec![1, 2, 3] });
    /// # Ok::<(), Box<dyn std::error::Error>>(())
    /// ```
    ///
    /// # Errors
    ///
    /// The sheet is held for want of blowers, as for [`Sheet::plan`].
    pub fn causes(&self) -> Result<Causes, Held> {
        let caused = ffi::causes(&self.bytes);
        match caused.number {
            0 => Ok(Causes::new(caused.listing, caused.cut)),
            // nothing is listed then, and planning shows the slots
            12 => Err(Held::new(&ffi::plan(&self.bytes).listing)),
            number => unreachable!("number {number} for an accepted sheet"),
        }
    }

    /// The shortfall of the slots that pass a test, which is asked of each slot of the day from 1 on: the feedings that
    /// are forced into them, less those that the blowers can make there. Below zero is spare capacity.
    pub fn shortfall(&self, is_in: impl FnMut(u32) -> bool) -> i32 {
        let marks: Vec<u8> = (1..=self.head.slots).map(is_in).map(u8::from).collect();
        ffi::shortfall(&self.bytes, &marks).shortfall
    }

    /// Whether the rations can be fed under bounds, which are asked for each slot of the day from 1 on.
    pub fn fits(&self, bounds: impl FnMut(u32) -> Bounds) -> bool {
        let (lows, highs): (Vec<u32>, Vec<u32>) = (1..=self.head.slots)
            .map(bounds)
            .map(|b| (b.low, b.high))
            .unzip();
        ffi::bounds(&self.bytes, &lows, &highs).yes
    }

    /// Plans this sheet and another, and gives the order of the two plans: `Less` if this sheet's plan comes before the
    /// other's. There is none if one of the two sheets is held.
    ///
    /// The plan with fewer slots comes first. Of two with as many, the first slot in which the lists of fed tanks
    /// differ decides, those of [`Plan::tanks_in`]: the list with the smaller tank at the first place that differs
    /// comes first; where there is no such place, the one that ends first. Plans are `Equal` if they have as many slots
    /// and the same list in each. Nothing else is compared, such as energy and bill; `==` compares the sheets instead.
    ///
    /// This is a total order of plans, so that sheets can be sorted by it. Each comparison plans both sheets.
    ///
    /// ```
    /// use kiwimound::Sheet;
    /// use std::cmp::Ordering;
    ///
    /// // One feeding each, in slot 3: of tank 1, and of tank 7.
    /// let sheet = Sheet::read("     3     1     1     1\n     1     1     3     1\n")?;
    /// let other = Sheet::read("     3     1     1     1\n     7     3     3     1\n")?;
    /// assert_eq!(sheet.compare(&other), Some(Ordering::Less));
    /// // A shorter window and a second blower, and the same plan.
    /// let other = Sheet::read("     3     2     1     1\n     1     2     3     1\n")?;
    /// assert_eq!(sheet.compare(&other), Some(Ordering::Equal));
    /// # Ok::<(), Box<dyn std::error::Error>>(())
    /// ```
    pub fn compare(&self, other: &Sheet) -> Option<Ordering> {
        let compared = ffi::compare(&self.bytes, &other.bytes);
        match (compared.number, compared.order) {
            (0, 1) => Some(Ordering::Equal),
            (0, 2) => Some(Ordering::Less),
            (0, 3) => Some(Ordering::Greater),
            (12, 0) => None,
            (number, order) => {
                unreachable!("number {number} with order {order} for accepted sheets")
            }
        }
    }
}
