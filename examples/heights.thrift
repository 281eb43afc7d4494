// Heights from a partner's handsets. Its fields have no numbers.
namespace rs rescue.partner
struct Height {
  required i32 height,
  optional string place = "",
}
exception Unknown {
  i32 handset,
}
service Heights {
  void send(Height height)
  list<Height> track(i32 handset, i32 most) throws (Unknown unknown)
}
