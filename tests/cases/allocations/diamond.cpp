void A(tapa::ostream<int>& ab, tapa::ostream<int>& ad) { ab << 1; ad << 2; }
void B(tapa::istream<int>& ab, tapa::ostream<uint8_t>& bd) { bd << ab.read(); }
void D(tapa::istream<uint8_t>& bd, tapa::istream<int>& ad) { bd.read(); ad.read(); }
void T() { tapa::stream<int> ab; tapa::stream<uint8_t> bd; tapa::stream<int> ad;
  tapa::task().invoke(A, ab, ad).invoke(B, ab, bd).invoke(D, bd, ad); }
