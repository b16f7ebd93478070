// MIT licence (NOTICE). From turboBasic/PopulationCircles2026 at 29312e2fd7, crates/popcircles/src/geodesy.rs.
// Cut: thiserror and the error texts, the doc tests, the tests, `#[must_use]`.
// Put in: the stand-ins for sin, cos, atan2, to_radians and powi, `rem_euclid` written out, and the sign of zero in
// `widened_by`.
use crate::stand_ins::{atan2, cos, rem_euclid, sin, squared, to_radians};

// The earth model, stated once for the whole program: a sphere of the IUGG mean radius, with
// distances as great-circle arcs on it. Nothing here is ellipsoidal, so a result may differ from a
// WGS 84 geodesic by a few tenths of a percent.
pub const EARTH_RADIUS_KM: f64 = 6371.0088;

#[derive(Debug, Clone, Copy, PartialEq)]
pub struct LatLon {
    pub lat: f64,
    pub lon: f64,
}

/// Longitude reduced to [-180, 180). Latitude has no counterpart here on purpose: a coordinate past
/// a pole is an error to reject, not a value to fold, because folding it silently moves a point to
/// the far side of the globe.
pub fn wrap_lon(lon: f64) -> f64 {
    if (-180.0..180.0).contains(&lon) {
        lon
    } else {
        rem_euclid(lon + 180.0, 360.0) - 180.0
    }
}

/// The central angle between two points, by the haversine formula (Sinnott, "Virtues of the
/// Haversine", *Sky & Telescope* 68(2), 1984).
///
/// Haversine loses relative precision as the pair approaches antipodal, where the sine of the half
/// angle flattens against 1. That regime is documented rather than handled: this search asks for
/// distances against a circle radius far below half the globe, so it never reads an answer from it.
pub fn angular_distance_rad(from: LatLon, to: LatLon) -> f64 {
    let lat_from = to_radians(from.lat);
    let lat_to = to_radians(to.lat);
    let half_delta_lat = (lat_to - lat_from) / 2.0;
    let half_delta_lon = to_radians(to.lon - from.lon) / 2.0;

    let h = squared(sin(half_delta_lat)) + cos(lat_from) * cos(lat_to) * squared(sin(half_delta_lon));
    // Pole to pole puts h a few ulps above 1 — cos(90°) is 6.1e-17 rather than 0, so the second
    // term never quite vanishes. Unclamped that makes sqrt(1 - h) a NaN out of a well-defined
    // input, so the clamp is correctness rather than tidiness.
    let h = h.clamp(0.0, 1.0);

    2.0 * atan2(h.sqrt(), (1.0 - h).sqrt())
}

/// Great-circle distance in kilometres on the [`EARTH_RADIUS_KM`] sphere.
pub fn great_circle_km(from: LatLon, to: LatLon) -> f64 {
    arc_km(angular_distance_rad(from, to))
}

/// The length of an arc subtending `angle_rad`: [`central_angle_rad`]'s inverse.
///
/// Apart from [`great_circle_km`] because a length assembled from two arcs has no pair of points to
/// measure between — a bound over a rectangle of the grid is one hop along a parallel and one along a
/// meridian, summed as angles and converted once.
pub fn arc_km(angle_rad: f64) -> f64 {
    EARTH_RADIUS_KM * angle_rad
}

/// The central angle an arc of `km` subtends: [`great_circle_km`]'s inverse.
///
/// It lives here for the reason [`zone_area_km2`] does. Dividing by the radius names the earth model as
/// much as multiplying by it does, and a circle's radius arrives in kilometres while the angle a
/// spherical cap is compared against is in radians.
pub fn central_angle_rad(km: f64) -> f64 {
    km / EARTH_RADIUS_KM
}

#[derive(Debug, Clone, Copy, PartialEq)]
pub enum RadiusError {
    NotFinite,
    Negative,
}

/// A circle radius in kilometres, checked once where it is made.
///
/// It lives here because the check is against the earth model rather than against any one caller: a
/// radius is a length on this sphere, and every signature taking one would otherwise repeat the same
/// two tests. Zero is a radius — the circle is its own centre.
#[derive(Debug, Clone, Copy, PartialEq, PartialOrd)]
pub struct RadiusKm(f64);

impl RadiusKm {
    /// # Errors
    /// [`RadiusError::NotFinite`] or [`RadiusError::Negative`] when the value is not a length.
    ///
    /// No upper bound: a radius past half the circumference names the whole sphere, which is a legal
    /// question with a legal answer. Growing one is [`RadiusKm::widened_by`]'s, which is total, so nothing
    /// downstream needs a ceiling here to protect it.
    pub fn new(km: f64) -> Result<Self, RadiusError> {
        if !km.is_finite() {
            return Err(RadiusError::NotFinite);
        }
        if km < 0.0 {
            return Err(RadiusError::Negative);
        }
        Ok(Self(km))
    }

    pub const fn km(self) -> f64 {
        self.0
    }

    /// This radius widened by `km`.
    ///
    /// Total rather than fallible, and the reason is a bound on the argument its caller can prove.
    /// `search`'s slack is bounded by the sphere — a [`crate::grid::Grid`] spans at most a full turn of
    /// longitude and half a turn of latitude, so the two-hop bound over one cannot exceed about 60 000 km
    /// — and adding a quantity that small to any finite radius stays finite, because the gap between
    /// `f64::MAX` and its neighbour is 2e292. A fallible constructor here would hand every caller an error
    /// arm no input can reach.
    ///
    /// Anything that is not a length lands on the widest radius there is rather than on the original. A
    /// caller widens in order to bound something, so an answer narrower than asked is the one failure mode
    /// that could lose a maximum; wider is merely slower.
    pub fn widened_by(self, km: f64) -> Self {
        let widened = self.0 + km;
        if widened.is_finite() {
            // The source has `widened.max(self.0)`, which leaves the sign open where both are zeros.
            if widened < self.0 {
                self
            } else {
                Self(widened)
            }
        } else {
            Self(f64::MAX)
        }
    }
}

/// An integer number of kilometres, which is always a length.
///
/// Total where [`RadiusKm::new`] is fallible, and that is what it is for: the search over radius steps in
/// whole kilometres, so a fallible conversion there would hand every step an error arm no `u32` can reach.
impl From<u32> for RadiusKm {
    fn from(km: u32) -> Self {
        Self(f64::from(km))
    }
}

/// The band of latitude between two parallels: what a spherical zone stands on, and what a grid row
/// occupies.
///
/// Named fields rather than a tuple because [`zone_area_km2`] subtracts these two in one direction
/// only, and a silent swap there flips a sign rather than failing.
#[derive(Debug, Clone, Copy, PartialEq)]
pub struct LatBand {
    north: f64,
    south: f64,
}

impl LatBand {
    pub(crate) const fn new(north: f64, south: f64) -> Self {
        Self { north, south }
    }

    pub const fn north(self) -> f64 {
        self.north
    }

    pub const fn south(self) -> f64 {
        self.south
    }
}

/// The area a band cuts from the sphere across `delta_lon_deg` of longitude, by the spherical zone
/// formula `R² · Δλ · (sin φ_north − sin φ_south)`.
///
/// It lives beside the radius rather than beside its caller so that the sphere appears in one module:
/// a second `EARTH_RADIUS_KM` in an expression elsewhere is how the earth model starts to drift.
pub fn zone_area_km2(band: LatBand, delta_lon_deg: f64) -> f64 {
    EARTH_RADIUS_KM
        * EARTH_RADIUS_KM
        * to_radians(delta_lon_deg)
        * (sin(to_radians(band.north)) - sin(to_radians(band.south)))
}
