// A bucket sort over lanes: each reader classifies by the upper bits, a crossbar in a fixed order hands values to the lanes, each lane sorts by insertion.
#include <ap_int.h>
#include <tapa.h>

constexpr int kLanes = 4;
constexpr int kCapacity = 32;
using sort_key_t = ap_uint<16>;

struct Item {
  sort_key_t key;
  bool valid;
};

void Load(tapa::mmap<const uint16_t> keys, int n, tapa::ostreams<Item, kLanes>& lanes) {
  for (int i = 0; i < n; ++i) {
#pragma HLS pipeline II = 1
    Item item;
    item.key = keys[i];
    item.valid = true;
    lanes[i % kLanes].write(item);
  }
  Item none;
  none.key = 0;
  none.valid = false;
  for (int i = n; i % kLanes != 0; ++i) lanes[i % kLanes].write(none);
  for (int lane = 0; lane < kLanes; ++lane) {
#pragma HLS unroll
    lanes[lane].close();
  }
}

int Bucket(const Item& item) {
#pragma HLS inline
  return item.key.range(15, 14);
}

void Crossbar(tapa::istreams<Item, kLanes>& from, tapa::ostreams<sort_key_t, kLanes>& to) {
  while (true) {
    if (from[0].eot(nullptr)) break;
    for (int lane = 0; lane < kLanes; ++lane) {
      Item item = from[lane].read();
      if (item.valid) {
        to[Bucket(item)].write(item.key);
      }
    }
  }
  for (int lane = 0; lane < kLanes; ++lane) {
    from[lane].open();
    to[lane].close();
  }
}

void Sort(tapa::istream<sort_key_t>& in, tapa::ostream<sort_key_t>& out) {
  sort_key_t sorted[kCapacity];
  int count = 0;
  while (!in.eot(nullptr)) {
    sort_key_t key = in.read(nullptr);
    int at = count++;
    while (at > 0 && sorted[at - 1] > key) {
      sorted[at] = sorted[at - 1];
      --at;
    }
    sorted[at] = key;
  }
  in.open();
  for (int i = 0; i < count; i++) out << sorted[i];
  out.close();
}

void Store(tapa::istreams<sort_key_t, kLanes>& lanes, tapa::mmap<uint16_t> keys) {
  int at = 0;
  for (int lane = 0; lane < kLanes; ++lane) {
    while (!lanes[lane].eot(nullptr)) {
      keys[at++] = lanes[lane].read(nullptr);
    }
    lanes[lane].open();
  }
}

void BucketSort(tapa::mmap<const uint16_t> keys, tapa::mmap<uint16_t> sorted, int n) {
  tapa::streams<Item, kLanes, 8> items("items");
  tapa::streams<sort_key_t, kLanes, 32> buckets("buckets");
  tapa::streams<sort_key_t, kLanes, 8> lanes("lanes");
  tapa::task()
      .invoke(Load, keys, n, items)
      .invoke(Crossbar, items, buckets)
      .invoke<tapa::join, kLanes>(Sort, buckets, lanes)
      .invoke(Store, lanes, sorted);
}
