//! The emitter categories, in the words of document 004: what sends. Messages
//! 117 and 201 take 0 to 21, of which 8, 13 and 16 are unassigned; 10, 20 and
//! 246 carry any octet.

/// No information on the type of aircraft.
pub const NO_TYPE_INFORMATION: u8 = 0;

/// Light aircraft, under 15,500 lbs.
pub const LIGHT: u8 = 1;

/// Small, 15,500 to 75,000 lbs.
pub const SMALL: u8 = 2;

/// Large, 75,000 to 300,000 lbs.
pub const LARGE: u8 = 3;

/// High vortex large, as B757.
pub const HIGH_VORTEX_LARGE: u8 = 4;

/// Heavy, over 300,000 lbs.
pub const HEAVY: u8 = 5;

/// Highly maneuverable, over 5G and high speed.
pub const HIGHLY_MANEUVERABLE: u8 = 6;

/// Rotorcraft.
pub const ROTORCRAFT: u8 = 7;

/// Glider, sailplane.
pub const GLIDER: u8 = 9;

/// Lighter than air.
pub const LIGHTER_THAN_AIR: u8 = 10;

/// Parachutist, sky diver.
pub const PARACHUTIST: u8 = 11;

/// Ultralight, hang glider, paraglider.
pub const ULTRALIGHT: u8 = 12;

/// Unmanned aerial vehicle.
pub const UNMANNED_AERIAL_VEHICLE: u8 = 14;

/// Space or trans-atmospheric vehicle.
pub const SPACE_VEHICLE: u8 = 15;

/// Surface vehicle, emergency.
pub const SURFACE_EMERGENCY_VEHICLE: u8 = 17;

/// Surface vehicle, service.
pub const SURFACE_SERVICE_VEHICLE: u8 = 18;

/// Point obstacle, tethered balloons too.
pub const POINT_OBSTACLE: u8 = 19;

/// Cluster obstacle.
pub const CLUSTER_OBSTACLE: u8 = 20;

/// Line obstacle.
pub const LINE_OBSTACLE: u8 = 21;
