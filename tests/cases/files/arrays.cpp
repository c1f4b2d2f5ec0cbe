void C(tapa::istream<int>& q) { q.read(); }
void T() { tapa::streams<int, 3> s; tapa::task().invoke<tapa::join, 3>(Q, s).invoke<tapa::join, 3>(C, s); }
