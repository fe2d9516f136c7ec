//! Searches for the letter's story: a log whose last fix is taken with one sine and rejected with
//! another. The original runs twice, over our trigonometry and over the platform's, on the same
//! records: configuration (the default), velocity, yaw, one turning prediction, fix.
//!
//! Prints the records' floats as bits, and the log itself in hexadecimal.

use std::process::exit;

/// The floats of one candidate: velocity, yaw, prediction, fix.
struct Story {
    velocity: [f32; 2],
    yaw: f32,
    predict: [f32; 4],
    fix: [f32; 2],
}

/// The original over one sine: whether the fix is taken.
macro_rules! taken {
    ($original:ident, $story:expr) => {{
        let story = $story;
        let mut filter = $original::ekf::Ekf::new();
        filter.update_velocity(story.velocity[0], story.velocity[1]);
        filter.update_yaw(story.yaw);
        let [ax, ay, wz, dt] = story.predict;
        filter.predict(ax, ay, wz, dt);
        filter.update_position(story.fix[0], story.fix[1]) == $original::ekf::UpdateResult::Accepted
    }};
}

fn main() {
    let mut state = 88172645463325252u64;
    let mut random = |low: f32, high: f32| {
        state ^= state << 13;
        state ^= state >> 7;
        state ^= state << 17;
        low + (high - low) * (state >> 40) as f32 / (1u32 << 24) as f32
    };
    for _ in 0..1_000_000 {
        let mut story = Story {
            velocity: [random(5.0, 40.0), random(-10.0, 10.0)],
            yaw: random(-1.0, 1.0),
            predict: [random(-3.0, 3.0), random(-1.0, 1.0), random(0.2, 0.9), 0.5],
            fix: [0.0, random(-1.0, 1.0)],
        };
        // the last float that our sine takes, by halving on its bits
        let (mut low, mut high) = (1.0f32.to_bits(), 200.0f32.to_bits());
        while high - low > 1 {
            let middle = (low + high) / 2;
            story.fix[0] = f32::from_bits(middle);
            if taken!(ours, &story) {
                low = middle;
            } else {
                high = middle;
            }
        }
        story.fix[0] = f32::from_bits(low);
        if taken!(ours, &story) && !taken!(platform, &story) {
            return tell(&story);
        }
    }
    println!("none found");
    exit(1);
}

fn tell(story: &Story) {
    let default = ours::ekf::EkfConfig::default();
    let config = [
        default.q_acc,
        default.q_gyro,
        default.q_bias,
        default.r_pos,
        default.r_vel,
        default.r_yaw,
        default.min_speed,
    ];
    let records: [(u8, &[f32]); 5] = [
        (1, &config),
        (4, &story.velocity),
        (6, &[story.yaw]),
        (2, &story.predict),
        (3, &story.fix),
    ];
    for (tag, floats) in records {
        print!("{tag:02X}{:02X}00", 4 * floats.len());
        for float in floats {
            print!("{:08X}", float.to_bits().swap_bytes());
        }
        println!();
    }
}
