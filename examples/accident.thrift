struct Waypoint {
  1: required i32 latitude,
  2: required i32 longitude,
}
@
const i32 MAX_WAYPOINTS = 32
