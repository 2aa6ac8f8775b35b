//! The calls that read a sheet, look a tank up, and write a sheet.

use crate::calls::{holds, same, sizes, Buffers, Checked};
use crate::expected::Expected;
use crate::values::Values;
use library::Written;
use reference::draws::Draws;
use reference::sheet::{find, write, LINE, MOST_TANK};

pub fn check_read(e: &Expected) -> Checked {
    let answer = library::read(&e.bytes);
    let mut numbers = [0; 256];
    let (mut refusal, mut head) = ((0, 0), [0; 4]);
    match &e.sheet {
        Ok(sheet) => {
            let flat = sheet.flat_rations();
            numbers[..flat.len()].copy_from_slice(&flat);
            head = [
                sheet.slots,
                sheet.blowers,
                sheet.wake,
                sheet.rations.len() as u32,
            ];
        }
        Err(r) => refusal = (r.number, r.line),
    }
    same("read", (answer.number, answer.line), refusal)?;
    let values = [answer.slots, answer.blowers, answer.wake, answer.rations];
    same("read", (values, answer.numbers), (head, numbers))
}

pub fn check_find(e: &Expected, draws: &mut Draws) -> Checked {
    let mut tanks = vec![0, draws.below(1001), draws.below(MOST_TANK + 2), u32::MAX];
    if let Ok(sheet) = &e.sheet {
        let rations = &sheet.rations;
        let ends = rations.first().into_iter().chain(rations.last());
        tanks.extend(ends.map(|ration| ration.tank));
        if !rations.is_empty() {
            let tank = rations[draws.index(rations.len())].tank;
            // The same last bits, or the same last digits, as one that is there.
            tanks.extend([tank, tank + 0x1_0000, tank + 100_000, tank + 1_000_000]);
        }
    }
    for tank in tanks {
        let part = library::find(&e.bytes, tank);
        let line = find(&e.bytes, tank);
        let place = match line.is_empty() {
            true => 0,
            false => line.as_ptr() as usize - e.bytes.as_ptr() as usize,
        };
        same("find", (part.start, part.length), (place, line.len()))?;
    }
    Ok(())
}

/// Writes the values from a flat list, and those of the whole rations from records.
pub fn check_write(values: &Values, draws: &mut Draws, b: &mut Buffers) -> Checked {
    let (head, flat) = (values.head, &values.flat);
    let from_flat = |out: &mut [u8]| library::write(head, flat, out);
    check_writing("write", head, flat, from_flat, draws, b)?;
    let rations = values.rations();
    let records = values.records(&rations);
    let head = [head[0], head[1], head[2], records.rations.len() as u32];
    let from_records = |out: &mut [u8]| records.write(out);
    check_writing(
        "write_rations",
        head,
        values.whole(),
        from_records,
        draws,
        b,
    )?;
    same(
        "write_rations changes the records",
        &rations,
        &values.rations(),
    )
}

fn check_writing(
    call: &str,
    head: [u32; 4],
    flat: &[u32],
    written: impl Fn(&mut [u8]) -> Written,
    draws: &mut Draws,
    b: &mut Buffers,
) -> Checked {
    let [slots, blowers, wake, n] = head;
    for size in sizes(LINE * (n.min(64) as usize + 1), draws) {
        let mut model = vec![0; size];
        let expected = write(slots, blowers, wake, n, flat, &mut model);
        let answer = written(b.sheet.lend(size));
        same(call, (answer.number, answer.line, answer.length), expected)?;
        holds(call, &mut b.sheet, &model[..expected.2])?;
    }
    Ok(())
}
