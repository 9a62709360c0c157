//! A case in the oracle's words (`oracle::single_call`).
use crate::case::{bytes, Call, Case, Fill, Header, Order};

pub fn words(case: &Case) -> String {
    let f = &case.figures;
    let mut all = header(&case.header);
    all += &format!(" {} {} {} {} {} {}", case.phase, f[0], f[1], f[2], f[3], f[4]);
    all += &format!(" {} {} {}", case.fills_settled, case.skipped, case.orders.len());
    case.orders.iter().for_each(|o| all += &order(o));
    all += &format!(" {}", case.fills.len());
    case.fills.iter().for_each(|f| all += &fill(f));
    all + &call(&case.call)
}

fn hex<const N: usize>(of: u8) -> String {
    bytes::<N>(of).iter().map(|b| format!("{b:02x}")).collect()
}

fn bit(flag: bool) -> u8 {
    u8::from(flag)
}

fn header(h: &Header) -> String {
    let [reveal_end, rofr_window, settle_deadline] = h.times;
    let mut words = format!("{reveal_end} {rofr_window} {settle_deadline} {} {}", h.max_cash, h.min_reveals);
    words += &format!(" {} {} {}", bit(h.forced), hex::<32>(h.authority), bit(h.mark));
    words + &format!(" {} {} {} {}", h.reserve, h.reference, h.policy, h.band_bps)
}

fn order(o: &Order) -> String {
    let mut words = format!(" {} {} {} {}", hex::<32>(o.owner), o.side, o.escrowed, bit(o.revealed));
    words += &format!(" {} {} {} {}", o.limit, o.qty, o.alloc, o.alloc_left);
    words + &format!(" {} {} {} {}", bit(o.screened), bit(o.eligible), o.exclusion, hex::<16>(o.id))
}

fn fill(f: &Fill) -> String {
    format!(" {} {} {} {} {}", hex::<32>(f.buyer), hex::<32>(f.seller), f.qty, bit(f.rofr), bit(f.settled))
}

fn call(c: &Call) -> String {
    let now = c.now;
    let arguments = match c.mark() {
        "SC" => {
            let id = hex::<16>(c.id);
            format!("{now} {} {} {} {} {id}", c.order, c.side, c.verdict, bit(c.has_id))
        }
        "AL" => format!("{now} {}", c.max_fills),
        "RX" => format!("{now} {} {} {}", hex::<32>(c.wallet), c.fill, c.qty),
        "RC" => format!("{now} {}", hex::<32>(c.wallet)),
        "ST" => format!("{}", c.fill),
        "SK" => format!("{now} {} {}", c.fill, c.reason),
        "--" => format!("{}", c.kind),
        _ => format!("{now}"),
    };
    format!(" {} {arguments}", c.mark())
}
