// Waypoints and channels of a handset.
namespace rs rescue.radio

const i32 MAX_WAYPOINTS = 32
const i32 MAX_CHANNELS = 16

struct Waypoint {
  1: required i32 latitude,
  2: required i32 longitude,
  /* metres above
     the sea */
  3: optional i16 height = 0,
}

service Position {
  list<Waypoint> track(1: i32 handset),
  oneway void clear(),
}
