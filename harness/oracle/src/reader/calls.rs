//! The call that a record says.
use super::body::Body;
use crate::record::Call;

pub fn call(mark: &[u8], b: &mut Body) -> Result<Call, u8> {
    if mark == b"ST" {
        return Ok(Call::Settle { fill: b.u32() });
    }
    let now = b.i64();
    Ok(match mark {
        b"SC" => screen(now, b)?,
        b"CL" => Call::Clear { now },
        b"AL" => Call::Allocate { now, max_fills: b.u8() },
        b"RX" => Call::Exercise { now, issuer: b.bytes(), fill: b.u32(), qty: b.u64() },
        b"RC" => Call::Close { now, caller: b.bytes() },
        b"SK" => skip(now, b)?,
        b"FN" => Call::Finish { now },
        b"EX" => Call::Expire { now },
        _ => unreachable!("an unknown mark"),
    })
}

fn screen(now: i64, b: &mut Body) -> Result<Call, u8> {
    let (order, side, verdict, has_id, id) = (b.u8(), b.u8(), b.u8(), b.flag()?, b.bytes());
    let id_missing = side == 0 && verdict == 0 && !has_id;
    if side > 1 || verdict > 6 || id_missing || (!has_id && id != [0; 16]) {
        return Err(4);
    }
    Ok(Call::Screen { now, order, side, verdict, id: has_id.then_some(id) })
}

fn skip(now: i64, b: &mut Body) -> Result<Call, u8> {
    let (fill, reason) = (b.u32(), b.u8());
    if reason > 6 {
        return Err(4);
    }
    Ok(Call::Skip { now, fill, reason })
}
