//! `predict` by either edition of the turn rule: edition 1 is the original's, edition 2 a second reading
//! of the change request over the original's own state.

use crate::ekf::Ekf;
use crate::math::Steps as _;

pub const FIRST: u32 = 1;
pub const SECOND: u32 = 2;

/// All that a prediction changes is the original's, but for the position at which a turn by edition 2
/// ends.
pub fn predict(ekf: &mut Ekf, edition: u32, &[ax, ay, wz, dt]: &[f32; 4]) {
    let (turning, [x, y, _, vx, vy, ..]) = (turns(ekf, wz), ekf.x);
    ekf.predict(ax, ay, wz, dt);
    if turning && edition == SECOND {
        let [east, north] = gains([vx, vy], wz, dt);
        ekf.x[0] = x + east;
        ekf.x[1] = y + north;
    }
}

/// Whether a prediction takes the turning model.
pub fn turns(ekf: &Ekf, wz: f32) -> bool {
    ekf.speed() > ekf.config.min_speed && wz.abs() > 1e-4
}

/// What a turn adds to the position, by the velocity before it.
fn gains([vx, vy]: [f32; 2], wz: f32, dt: f32) -> [f32; 2] {
    let a = (wz * dt).sin();
    let b = (wz * dt).cos() - 1.0;
    [a / wz * vx + b / wz * vy, -b / wz * vx + a / wz * vy]
}
