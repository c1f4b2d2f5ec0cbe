// Rounds of a block cipher on four columns: a table of bytes, arrays of two dimensions that helpers change, bytes of a word by a vector.
#include <cstdint>

#include <tapa.h>

typedef unsigned char byte;
using Block = tapa::vec_t<byte, 16>;

const byte kBox[16] = {0x6, 0xb, 0x5, 0x4, 0x2, 0xe, 0x7, 0xa, 0x9, 0xd, 0xf, 0xc, 0x3, 0x1, 0x0, 0x8};

static byte Substitute(byte x) { return kBox[x >> 4] << 4 | kBox[x & 0xf]; }
static byte Twice(byte x) { return (x << 1) ^ ((x & 0x80) ? 0x1b : 0); }

static void ShiftRows(byte state[4][4]) {
  for (int r = 1; r < 4; ++r) {
    byte row[4];
    for (int c = 0; c < 4; ++c) row[c] = state[r][(c + r) % 4];
    for (int c = 0; c < 4; ++c) state[r][c] = row[c];
  }
}

static void MixColumns(byte state[4][4]) {
  for (int c = 0; c < 4; ++c) {
    byte a[4];
    byte all = 0;
    for (int r = 0; r < 4; ++r) {
      a[r] = state[r][c];
      all ^= a[r];
    }
    for (int r = 0; r < 4; ++r) {
      state[r][c] = a[r] ^ all ^ Twice(a[r] ^ a[(r + 1) & 3]);
    }
  }
}

static void AddKey(byte state[4][4], const byte* key, int round) {
  for (int r = 0; r < 4; ++r)
    for (int c = 0; c < 4; ++c) state[r][c] ^= key[4 * c + r] + round;
}

void Load(tapa::mmap<const Block> in, int n, tapa::ostream<Block>& out) {
  for (int i = 0; i < n; i++) out.write(in[i]);
  out.close();
}

void Round(int first, int rounds, tapa::mmap<const byte> keys, tapa::istream<Block>& in, tapa::ostream<Block>& out) {
  byte key[16];
  for (int i = 0; i < 16; ++i) key[i] = keys[i];
  TAPA_WHILE_NOT_EOT(in) {
    Block block = in.read(nullptr);
    byte state[4][4];
    for (int i = 0; i < 16; ++i) state[i % 4][i / 4] = block[i];
    for (int round = first; round < first + rounds; ++round) {
      for (auto& row : state) {
        for (byte& cell : row) cell = Substitute(cell);
      }
      ShiftRows(state);
      if (round != 3) MixColumns(state);
      AddKey(state, key, round);
    }
    for (int i = 0; i < 16; ++i) block[i] = state[i % 4][i / 4];
    out.write(block);
  }
  in.open();
  out.close();
}

void Save(tapa::istream<Block>& in, tapa::mmap<Block> out) {
  int i = 0;
  TAPA_WHILE_NOT_EOT(in) out[i++] = in.read(nullptr);
  in.open();
}

void Cipher(tapa::mmap<const Block> in, tapa::mmap<Block> out, tapa::mmap<const byte> keys_0, tapa::mmap<const byte> keys_1, int n) {
  tapa::stream<Block, 2> a("a"), b("b"), c("c");
  tapa::task().invoke(Load, in, n, a).invoke(Round, 0, 2, keys_0, a, b).invoke(Round, 2, 2, keys_1, b, c).invoke(Save, c, out);
}
