// Faults that a comparison must find. Each is an edit of a published file or of the oracle's reader, made in a copy that is compiled
// for this alone; FAULT stands for 'this fault is switched on'. The first six are among document 01's falsehoods and idle programs.
pub struct Fault {
    pub name: &'static str,
    pub file: &'static str,
    pub old: &'static str,
    pub new: &'static str,
}

const fn fault(name: &'static str, file: &'static str, old: &'static str, new: &'static str) -> Fault {
    Fault { name, file, old, new }
}

const ENGINE: &str = "engine.rs";
const MATH: &str = "allocation.rs";
const DIVISION: &str = "lib.rs";
const READER: &str = "oracle/reader/opening.rs";

pub const FAULTS: &[Fault] = &[
    fault(
        "residue by largest remainder",
        MATH,
        "    for &i in &order {",
        "    if FAULT {
                let total = residue + out.iter().map(|o| o.1).sum::<u128>();
                let sum = bids.iter().map(|b| b.1).sum::<u128>().max(1);
                order.sort_by_key(|&i| core::cmp::Reverse(total * bids[i].1 % sum));
            }
            for &i in &order {",
    ),
    fault("self-trade against excluded orders", ENGINE, "|| !o.is_live() ||", "|| !(o.is_live() || FAULT) ||"),
    fault(
        "cap by quantity",
        ENGINE,
        "cash += u128::from(o.escrowed)",
        "cash += u128::from(if FAULT { o.qty } else { o.escrowed })",
    ),
    fault(
        "participants by wallet alone",
        ENGINE,
        ".and_then(|j| session.investor_id(j))",
        ".and_then(|j| session.investor_id(j).filter(|_| !FAULT))",
    ),
    fault("allowance 0 makes a fill", ENGINE, "while made < max_fills {", "while made < max_fills.max(u8::from(FAULT)) {"),
    fault("every fill in the first crank", ENGINE, "made += 1;", "made += u8::from(!FAULT);"),
    fault("imbalance unread", MATH, "else if imbalance != best_imbalance", "else if !FAULT && imbalance != best_imbalance"),
    fault("reference unread", MATH, "if d_new != d_best {", "if !FAULT && d_new != d_best {"),
    fault("the higher of two equal prices", MATH, "p < b.clear_price", "(p < b.clear_price) != FAULT"),
    fault("limits below the reserve", MATH, "|p| *p >= reserve_price", "|p| FAULT || *p >= reserve_price"),
    fault("excluded orders are live", ENGINE, "self.screened && self.eligible", "self.screened && (self.eligible || FAULT)"),
    fault("an id of zeros is an investor", ENGINE, "|id| *id != NO_INVESTOR", "|id| FAULT || *id != NO_INVESTOR"),
    fault("a cap that equality exceeds", ENGINE, "cash > u128::from(", "cash + u128::from(FAULT) > u128::from("),
    fault("one reveal too few", ENGINE, "eligible < usize::from(", "eligible + usize::from(FAULT) < usize::from("),
    fault(
        "a forced sale needs the mark",
        ENGINE,
        "if session.params.forced_sale {",
        "if session.params.forced_sale && !(FAULT && feed.is_standstill(now)) {",
    ),
    fault("a clear before every screen", ENGINE, "!o.revealed || o.screened", "!o.revealed || o.screened || FAULT"),
    fault(
        "phase before window in a screen",
        ENGINE,
        "    require!(\n        now >= session.params.reveal_end && now <",
        "    let open = matches!(session.phase, Phase::Commit | Phase::Reveal | Phase::Clearing);
            require!(open || !FAULT, AuctionError::WrongPhase);
            require!(\n        now >= session.params.reveal_end && now <",
    ),
    fault(
        "a purchase at the end of the window",
        ENGINE,
        "now < session.rofr_end(),",
        "now < session.rofr_end() || (FAULT && now == session.rofr_end()),",
    ),
    fault("a line for a fill that the issuer took whole", ENGINE, "if f.qty == 0 {", "if f.qty == 0 && !FAULT {"),
    fault(
        "skipped fills in the printed volume",
        ENGINE,
        "session.skipped_fills & (1 << i) == 0",
        "session.skipped_fills & (1 << i) == 0 || FAULT",
    ),
    fault(
        "skipped fills among the participants",
        ENGINE,
        "session.skipped_fills & (1 << i) != 0",
        "(session.skipped_fills & (1 << i) != 0 && !FAULT)",
    ),
    fault(
        "a banded price shown exactly",
        ENGINE,
        "Some(band(price, band_bps))",
        "Some(if FAULT { price } else { band(price, band_bps) })",
    ),
    fault(
        "expiry one later",
        ENGINE,
        "now >= session.params.settle_deadline,",
        "now >= session.params.settle_deadline && !(FAULT && now == session.params.settle_deadline),",
    ),
    fault("an amount rounded down", DIVISION, "u128::from(!a.is_multiple_of(b))", "u128::from(!a.is_multiple_of(b) && !FAULT)"),
    fault(
        "an amount cut to 64 bits",
        ENGINE,
        "u64::try_from(v).map_err(",
        "u64::try_from(if FAULT { v & u128::from(u64::MAX) } else { v }).map_err(",
    ),
    fault(
        "a buy that its escrow just covers stopped",
        ENGINE,
        "gross(qty, limit, decimals)? <= order.escrowed,",
        "gross(qty, limit, decimals)? <= order.escrowed - u64::from(FAULT),",
    ),
    fault(
        "a sell's quantity scaled",
        ENGINE,
        "Side::Sell => require!(qty <= order.escrowed,",
        "Side::Sell => require!(if FAULT { gross(qty, 1, decimals)? } else { qty } <= order.escrowed,",
    ),
    fault("twenty decimals taken", READER, "d > MAX_DECIMALS", "d > MAX_DECIMALS + u8::from(FAULT)"),
    fault("cover asked after `SH`", READER, "decimals.filter(", "decimals.or(FAULT.then_some(0)).filter("),
    fault("cover asked of an unrevealed order", READER, "|_| o.revealed)", "|_| o.revealed || FAULT)"),
    fault(
        "31 after 7",
        READER,
        "    if let Some(decimals) =",
        "    if FAULT && state.session.orders.len() >= crate::MAX_ORDERS {
                return Err(7);
            }
            if let Some(decimals) =",
    ),
    fault(
        "31 after 8",
        READER,
        "    if let Some(decimals) =",
        "    if FAULT && state.session.orders.iter().any(|p| p.owner.0 == o.owner) {
                return Err(8);
            }
            if let Some(decimals) =",
    ),
    fault(
        "31 before 6",
        READER,
        "    if o.escrowed == 0 ||",
        "    if let (true, true, Some(decimals)) = (FAULT, o.revealed, decimals) {
                engine::reveal(state, &o, decimals)?;
            }
            if o.escrowed == 0 ||",
    ),
];

/// The text of a file with its faults, each behind its switch.
#[allow(dead_code)] // for the build scripts
pub fn with_faults(file: &str, mut text: String) -> String {
    for (number, fault) in FAULTS.iter().enumerate().filter(|(_, f)| f.file == file) {
        assert_eq!(text.matches(fault.old).count(), 1, "{}: its place in the published file", fault.name);
        text = text.replace(fault.old, &fault.new.replace("FAULT", &format!("switch::is_on({number})")));
    }
    text
}
