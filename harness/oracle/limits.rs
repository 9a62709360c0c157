// The limits of a session, once for the whole harness. The build sets the published engine's two constants to them.
pub const MAX_ORDERS: usize = 16;
pub const MAX_FILLS: usize = 24;
