// Channels of a handset.
namespace rs rescue.radio
const i32 MAX_CHANNELS = 16
typedef i32 Hertz
enum Mode {
  VOICE = 0,
  DATA = 1,
  // listens only
  WATCH = 2,
}
struct Channel {
  1: required i32 number,
  2: required Hertz frequency,
  3: optional Mode mode = Mode.VOICE,
  /* the name on the display,
     at most 12 letters */
  4: optional string name,
}
const list<i32> EMERGENCY = [1, 9, 16]
