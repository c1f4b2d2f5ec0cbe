// Codes of several widths, packed into words and taken apart again: a table of codes, a bit buffer with methods, ranges of ap_uint.
#include <ap_int.h>
#include <tapa.h>

struct Code {
  ap_uint<9> bits;
  ap_uint<4> length;
};

// a prefix code of eight symbols
const int kSymbols = 8;
const int kLengths[kSymbols] = {1, 3, 3, 4, 4, 5, 6, 6};
const int kCodes[kSymbols] = {0x0, 0x4, 0x5, 0xc, 0xd, 0x1c, 0x3a, 0x3b};

class BitBuffer {
 public:
  BitBuffer() : bits_(0), count_(0) {}
  void Push(const Code& code) {
    bits_ = (bits_ << int(code.length)) | uint64_t(code.bits);
    count_ += int(code.length);
  }
  bool HasWord() const { return count_ >= 32; }
  uint32_t Pop() {
    count_ -= 32;
    return uint32_t(bits_ >> count_);
  }
  uint32_t Flush() {
    const int left = 32 - count_;
    const uint32_t word = count_ == 0 ? 0 : uint32_t(bits_ << left);
    count_ = 0;
    return word;
  }
  int count() const { return count_; }

 private:
  uint64_t bits_;
  int count_;
};

void Encode(tapa::mmap<const uint8_t> symbols, int n, tapa::ostream<Code>& out) {
  for (int i = 0; i < n; ++i) {
    Code code;
    const int s = symbols[i] % kSymbols;
    code.bits = kCodes[s];
    code.length = kLengths[s];
    out << code;
  }
  out.close();
}

void Pack(tapa::istream<Code>& in, tapa::ostream<uint32_t>& words) {
  BitBuffer buffer;
  TAPA_WHILE_NOT_EOT(in) {
    buffer.Push(in.read(nullptr));
    if (buffer.HasWord()) words << buffer.Pop();
  }
  in.open();
  if (buffer.count() > 0) words << buffer.Flush();
  words.close();
}

void Unpack(tapa::istream<uint32_t>& words, int n, tapa::ostream<uint8_t>& out) {
  ap_uint<64> window = 0;
  int valid = 0;
  int done = 0;
  while (done < n) {
    if (valid <= 32 && !words.eot(nullptr)) {
      const ap_uint<32> word = words.read(nullptr);
      window |= ap_uint<64>(word) << (32 - valid);
      valid += 32;
      continue;
    }
    int found = -1;
    for (int s = 0; s < kSymbols; ++s) {
      const uint64_t top = uint64_t(window) >> (64 - kLengths[s]);
      if (top == (uint64_t) kCodes[s]) {
        found = s;
        break;
      }
    }
    out << static_cast<uint8_t>(found);
    window <<= kLengths[found & 7];
    valid -= kLengths[found & 7];
    ++done;
  }
  while (!words.eot(nullptr)) words.read(nullptr);
  words.open();
}

void Compare(tapa::mmap<const uint8_t> symbols, int n, tapa::istream<uint8_t>& in, tapa::mmap<uint32_t> result) {
  uint32_t wrong = 0;
  for (int i = 0; i < n; ++i)
    if (in.read() != symbols[i] % kSymbols) wrong++;
  result[0] = wrong;
  result[1] = n;
}

void BitPacker(tapa::mmap<const uint8_t> symbols, tapa::mmap<const uint8_t> again, tapa::mmap<uint32_t> result, int n) {
  tapa::stream<Code, 4> codes("codes");
  tapa::stream<uint32_t, 4> words("words");
  tapa::stream<uint8_t, 4> decoded("decoded");
  tapa::task().invoke(Encode, symbols, n, codes).invoke(Pack, codes, words).invoke(Unpack, words, n, decoded).invoke(Compare, again, n, decoded, result);
}
