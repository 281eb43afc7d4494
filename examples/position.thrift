// Positions that handsets send to the base.
include "waypoints.thrift"
include "channels.thrift"
namespace rs rescue.radio
const i32 MAX_TRACK = 256
struct Position {
  1: required i32 handset,
  2: required waypoints.Waypoint place,
  // seconds since the start of the search
  3: required i64 time,
}
exception Unknown {
  1: required i32 handset,
}
service Positions {
  void send(1: Position position)
  list<Position> track(1: i32 handset, 2: i32 most) throws (1: Unknown unknown)
  oneway void clear(1: i32 handset)
}
