//! What of the second program is measured.
#[allow(dead_code)]
#[path = "../../second/src/machine.rs"]
pub mod machine;
#[allow(dead_code)]
#[path = "../../second/src/passes.rs"]
pub mod passes;
#[allow(dead_code)]
#[path = "../../second/src/playback.rs"]
pub mod playback;
#[allow(dead_code)]
#[path = "../../second/src/random.rs"]
pub mod random;
#[allow(dead_code)]
#[path = "../../second/src/refusal.rs"]
pub mod refusal;
#[allow(dead_code)]
#[path = "../../second/src/schedules.rs"]
pub mod schedules;
#[allow(dead_code)]
#[path = "../../second/src/setup.rs"]
pub mod setup;
#[allow(dead_code)]
#[path = "../../second/src/shapes.rs"]
pub mod shapes;
#[allow(dead_code)]
#[path = "../../second/src/sheet.rs"]
pub mod sheet;
