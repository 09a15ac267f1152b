//! Stand-in for the crate `dynamics`: the cell `SimBox`, as the rules decide.

use lin_alg::f32::Vec3;

#[derive(Clone, Copy, Debug)]
pub struct SimBox {
    pub bounds_low: Vec3,
    pub bounds_high: Vec3,
    pub extent: Vec3,
}

#[inline]
fn wrap_axis(p: f32, low: f32, extent: f32) -> f32 {
    p - extent * ((p - low) / extent).floor()
}

/// Halves go away from zero, as in the original's `properties/mod.rs`.
#[inline]
fn image_axis(d: f32, extent: f32) -> f32 {
    d - extent * (d / extent).round()
}

impl SimBox {
    #[inline]
    pub fn new(low: Vec3, high: Vec3) -> Self {
        Self {
            bounds_low: low,
            bounds_high: high,
            extent: high - low,
        }
    }

    #[inline]
    pub fn wrap(&self, p: Vec3) -> Vec3 {
        Vec3::new(
            wrap_axis(p.x, self.bounds_low.x, self.extent.x),
            wrap_axis(p.y, self.bounds_low.y, self.extent.y),
            wrap_axis(p.z, self.bounds_low.z, self.extent.z),
        )
    }

    #[inline]
    pub fn min_image(&self, d: Vec3) -> Vec3 {
        Vec3::new(
            image_axis(d.x, self.extent.x),
            image_axis(d.y, self.extent.y),
            image_axis(d.z, self.extent.z),
        )
    }

    #[inline]
    pub fn volume(&self) -> f32 {
        self.extent.x * self.extent.y * self.extent.z
    }
}
